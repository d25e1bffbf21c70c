/* Parses a document with a namespace, entities and an error.
 *
 * package: expat
 * sources: expat/lib/xmlparse.c expat/lib/xmlrole.c expat/lib/xmltok.c
 * flags: -I ROOT/expat/lib -I HERE/expat -DXML_POOR_ENTROPY
 */
#include "real.h"
#include <expat.h>

#if !__STDC_HOSTED__
/* The board has no environment; expat looks there for levels of debugging. */
char *getenv(const char *name)
{
    return NULL;
}
#endif

static unsigned seen = 1, starts, ends, bytes;

static void start(void *data, const XML_Char *name, const XML_Char **attributes)
{
    starts++;
    seen = seen * 31 + sum_of(name, strlen(name));
    for (; *attributes; attributes++)
        seen = seen * 31 + sum_of(*attributes, strlen(*attributes));
}

static void end(void *data, const XML_Char *name)
{
    ends++;
}

static void text_of(void *data, const XML_Char *text, int length)
{
    bytes += length;
    seen = seen * 31 + sum_of(text, length);
}

static void parse(const char *document)
{
    XML_Parser parser = XML_ParserCreateNS(NULL, ' ');

    XML_SetHashSalt(parser, 1);
    XML_SetElementHandler(parser, start, end);
    XML_SetCharacterDataHandler(parser, text_of);
    show("parse", XML_Parse(parser, document, strlen(document), 1));
    show("error", XML_GetErrorCode(parser));
    show("line", XML_GetCurrentLineNumber(parser));
    show("starts", starts);
    show("ends", ends);
    show("bytes", bytes);
    show("seen", seen);
    XML_ParserFree(parser);
}

void drive(void)
{
    parse("<?xml version='1.0'?><!DOCTYPE b [<!ENTITY k 'kernel'>]>\n"
          "<b xmlns='urn:board' n=\"1\"><t id='1'>the &k; &lt;5.4&gt; &#233;</t><t/></b>");
    parse("<a>\n<b></a>");
}
