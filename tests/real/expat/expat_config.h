/* The settings of expat: high byte first. */
#define BYTEORDER 4321
#define XML_CONTEXT_BYTES 1024
#define XML_DTD 1
#define XML_NS 1
