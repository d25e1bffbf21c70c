/* Tokens of a text.
 *
 * package: jsmn
 * flags: -I ROOT
 */
#include "real.h"
#include <jsmn.h>

void drive(void)
{
    static const char text[] = "{\"ticks\": [1, 2, 30], \"task\": {\"name\": \"tShell\", \"ready\": true}}";
    jsmntok_t tokens[32];
    jsmn_parser parser;
    int count;

    jsmn_init(&parser);
    count = jsmn_parse(&parser, text, strlen(text), tokens, 32);
    show("count", count);
    show("tokens", sum_of(tokens, count * sizeof tokens[0]));
    jsmn_init(&parser);
    show("part", jsmn_parse(&parser, text, 20, tokens, 32));
    jsmn_init(&parser);
    show("room", jsmn_parse(&parser, text, strlen(text), tokens, 3));
}
