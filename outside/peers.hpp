// The peers: expat and libxml2. Each says whether bytes are a well-formed document, and its tree as a list of words.
#pragma once
#include <expat.h>
#include <libxml/parser.h>
#include <libxml/parserInternals.h>

#include <cstring>
#include <string>

// A tree as words, each with a zero byte behind it: `<` and a name, a blank and an attribute's name, `=` and its value, `/` and a name.
using Tree = std::string;

inline void word(Tree &t, char sort, const char *bytes, size_t length) {
    t += sort;
    t.append(bytes, length);
    t += '\0';
}

inline void word(Tree &t, char sort, const char *text) { word(t, sort, text, strlen(text)); }

template <typename Char>
void opened(Tree &t, const Char *name, const Char **pairs) {
    word(t, '<', (const char *)name);
    for (; pairs && pairs[0]; pairs += 2) {
        word(t, ' ', (const char *)pairs[0]);
        word(t, '=', (const char *)pairs[1]);
    }
}

inline void XMLCALL expat_open(void *user, const XML_Char *name, const XML_Char **pairs) { opened(*static_cast<Tree *>(user), name, pairs); }
inline void XMLCALL expat_close(void *user, const XML_Char *name) { word(*static_cast<Tree *>(user), '/', name); }

// What a peer says: whether the bytes are a document, and if so its tree.
struct Word {
    bool good;
    Tree tree;
};

inline XML_Status expat_run(const std::string &d, bool whole, Tree &tree) {
    static XML_Parser p = XML_ParserCreate(nullptr);
    XML_ParserReset(p, nullptr);
    XML_SetUserData(p, &tree);
    XML_SetElementHandler(p, expat_open, expat_close);
    return XML_Parse(p, d.data(), (int)d.size(), whole);
}

inline Word by_expat(const std::string &d) {
    Word w;
    w.good = expat_run(d, true, w.tree) == XML_STATUS_OK;
    return w;
}

// Expat sees no error in these bytes as the beginning of a document.
inline bool begins_by_expat(const std::string &d) {
    Tree tree;
    return expat_run(d, false, tree) == XML_STATUS_OK;
}

inline void libxml_open(void *user, const xmlChar *name, const xmlChar **pairs) { opened(*static_cast<Tree *>(user), name, pairs); }
inline void libxml_close(void *user, const xmlChar *name) { word(*static_cast<Tree *>(user), '/', (const char *)name); }

inline void libxml_silent(void *, const char *, ...) {}

inline Word by_libxml(const std::string &d) {
    static xmlSAXHandler handler = [] {
        xmlSAXHandler h;
        memset(&h, 0, sizeof h);
        h.startElement = libxml_open;
        h.endElement = libxml_close;
        xmlSetGenericErrorFunc(nullptr, libxml_silent);
        return h;
    }();
    Word w{false, {}};
    if (d.empty()) return w;
    xmlParserCtxtPtr c = xmlCreateMemoryParserCtxt(d.data(), (int)d.size());
    xmlSAXHandlerPtr own = c->sax;
    c->sax = &handler;
    c->userData = &w.tree;
    // NOENT: without it a referenced `&` is handed out as the reference `&#38;`.
    xmlCtxtUseOptions(c, XML_PARSE_NONET | XML_PARSE_NOERROR | XML_PARSE_NOWARNING | XML_PARSE_NOENT);
    w.good = xmlParseDocument(c) == 0 && c->wellFormed;
    c->sax = own;
    if (c->myDoc) xmlFreeDoc(c->myDoc);
    c->myDoc = nullptr;
    xmlFreeParserCtxt(c);
    return w;
}
