/* A first program with the installed library: checks a message, names its kind, and hands out a text. Status 0 if all is as it must be. */
#include <stdio.h>
#include <tryphomel.h>

int main(void) {
    static const char bytes[] = "<Hermes><CheckAlive Type='1' Id='R&amp;D'/></Hermes>";
    uint8_t scratch[TRYPHOMEL_SHORT_TEXT];
    const uint8_t *text;
    uint64_t count;
    tryphomel_checked found;
    if (!tryphomel_fits()) {
        printf("the header is %d, the library %lu\n", TRYPHOMEL_VERSION, (unsigned long)tryphomel_version());
        return 1;
    }
    printf("%s: ", tryphomel_refusal_name(tryphomel_message_check(bytes, sizeof bytes - 1, &found)));
    if (tryphomel_words_text(found.message.as.alive.id, bytes, sizeof bytes - 1, scratch, sizeof scratch, &text, &count) != TRYPHOMEL_ACCEPTED) return 1;
    printf("%s, Id %.*s\n", tryphomel_kind_name(found.message.kind), (int)count, (const char *)text);
    return found.refusal != TRYPHOMEL_ACCEPTED || count != 3;
}
