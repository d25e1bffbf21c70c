/* Parses a request and a chunked response, and a URL.
 *
 * package: http-parser
 * sources: http_parser.c
 * flags: -I ROOT
 */
#include "real.h"
#include <http_parser.h>

static unsigned seen = 1;

static int data(http_parser *parser, const char *text, size_t size)
{
    seen = seen * 31 + sum_of(text, size);
    return 0;
}

static int done(http_parser *parser)
{
    seen = seen * 31 + 7;
    return 0;
}

static void parse(enum http_parser_type type, const char *text)
{
    http_parser_settings settings;
    http_parser parser;

    http_parser_settings_init(&settings);
    settings.on_url = settings.on_header_field = settings.on_header_value = settings.on_body = data;
    settings.on_message_complete = done;
    http_parser_init(&parser, type);
    show("parsed", http_parser_execute(&parser, &settings, text, strlen(text)));
    show("error", parser.http_errno);
    show("method", parser.method);
    show("status", parser.status_code);
    show("seen", seen);
}

void drive(void)
{
    struct http_parser_url url;

    parse(HTTP_REQUEST, "GET /board?ram=16 HTTP/1.1\r\nHost: wind\r\nContent-Length: 4\r\n\r\ntick");
    parse(HTTP_RESPONSE, "HTTP/1.1 200 OK\r\nTransfer-Encoding: chunked\r\n\r\n4\r\ntask\r\n0\r\n\r\n");
    parse(HTTP_REQUEST, "BAD\r\n\r\n");
    http_parser_url_init(&url);
    show("url", http_parser_parse_url("http://wind:8080/a?b#c", 22, 0, &url));
    show("port", url.port);
    show("fields", url.field_set);
}
