/* Parses a text with doubles, and writes it.
 *
 * package: cjson
 * sources: cJSON.c
 * flags: -I ROOT
 */
#include "real.h"
#include <cJSON.h>

void drive(void)
{
    static const char text[] = "{\"board\": {\"ram\": 16777216, \"rate\": 6.25e-2, \"name\": \"wind\\u00e9\\n\"}, "
                               "\"list\": [1, -2.5, true, null, 1e300, 0.1]}";
    cJSON *root = cJSON_Parse(text);
    char *written = cJSON_Print(root), *plain = cJSON_PrintUnformatted(root);
    double rate = cJSON_GetObjectItem(cJSON_GetObjectItem(root, "board"), "rate")->valuedouble;

    show("size", strlen(written));
    show("written", sum_of(written, strlen(written)));
    show("plain", sum_of(plain, strlen(plain)));
    show("items", cJSON_GetArraySize(cJSON_GetObjectItem(root, "list")));
    show("rate", sum_of(&rate, sizeof rate));
    show("bad", cJSON_Parse("[1, 2") == NULL);
    cJSON_Delete(root);
}
