// Fuzzes the calls for C with libFuzzer: no byte outside what is lent is touched, and each answer keeps to its numbers.
// The library carries no address checks of its own. So what a call is lent lies against a page that nobody may touch, once against the page
// behind it and once against the page before it: one byte too far is a crash. Bytes on the free side are compared afterwards.
// The last bytes of an input are dials: which span is asked for, how long the buffers are, how far the message is stretched, and the lane record.
#include "lanes.hpp"

namespace {

Read on_read(const uint8_t *bytes, size_t n) {
    Read r{9, UINT64_MAX, UINT64_MAX};
    r.answer = tryphomel_read(bytes, n, &r.start, &r.place);
    expect(r.answer <= 3 && r.start <= n, "an answer, and a start in the input");
    expect(r.answer != 0 || (r.start < r.place && r.place <= n && r.place - r.start <= LIMIT), "0: an end in the input, within the limit");
    expect(r.answer != 1 || (r.place == 0 && n - r.start < LIMIT), "1: below the limit");
    expect(r.answer != 2 || (r.start <= r.place && r.place < n && r.place - r.start < LIMIT), "2: a place in the input, within the limit");
    expect(r.answer != 3 || (r.place == 0 && n - r.start >= LIMIT), "3: at the limit");
    return r;
}

// What is absent is zero, and so is what stands behind the rows of the kind.
void on_cells(const tryphomel_message &m, unsigned refusal) {
    static const size_t rows[] = {0, 4, 3, 17, 0, 2, 0, 2, 2, 2, 2, 17};
    for (size_t i = 0; i < TRYPHOMEL_CELLS; i++) {
        const tryphomel_words &c = m.as.cells[i];
        expect(c.there ? c.there == 1 && refusal == 0 && i < rows[m.kind] : c.start == 0 && c.len == 0, "the cells of an accepted message's rows alone");
    }
    expect(tryphomel_has_id(&m) || std::all_of(m.id, m.id + sizeof m.id, [](uint8_t b) { return b == 0; }), "an id that is there");
    if (m.kind == TRYPHOMEL_BOARD_AVAILABLE) expect(m.as.board.length.value <= 9999999999999 && m.as.board.failed.value <= 2, "values in their ranges");
    if (m.kind == TRYPHOMEL_BOARD_FORECAST) expect(m.as.forecast.until.value <= 9999999999999 && m.as.forecast.failed.value <= 2, "values in their ranges");
}

void on_check(const uint8_t *bytes, size_t n, const Read &r) {
    tryphomel_checked c;
    memset(&c, 9, sizeof c);
    unsigned refusal = tryphomel_message_check(bytes, n, &c);
    uint64_t end = c.end, kind = c.message.kind;
    bool fits = r.answer ? refusal == r.answer && end == 0 && kind == 0 : end == r.place && kind <= TRYPHOMEL_BOARD_FORECAST;
    expect(c.start == r.start && c.place == (r.answer == 2 ? r.place : 0), "the check says where, as the reader does");
    expect(fits, "the check says what the reader says");
    expect(r.answer || refusal == 0 || refusal == 4 || refusal == 5 || refusal == 6, "a refusal of a message");
    on_cells(c.message, refusal);
}

// Asks for the text at a span, with a scratch against a fence.
void on_text(const uint8_t *bytes, size_t n, const Dials &d, uint64_t start, uint64_t length, bool high) {
    static Fence fence;
    uint64_t place = 9, at = 9, count = 9;
    uint8_t *scratch = fence.lend(d.room, high);
    memset(scratch, 0x5a, d.room);
    unsigned refusal = tryphomel_text(bytes, n, d.there, start, length, scratch, d.room, &place, &at, &count);
    bool inside = start <= n && length <= n - start;
    size_t written = refusal == 0 && place == 2 ? count : 0;
    expect(fence.side_kept(), "nothing beside the scratch is changed");
    expect(written <= d.room, "the text is in the scratch");
    expect(std::all_of(scratch + written, scratch + d.room, [](uint8_t b) { return b == 0x5a; }), "the rest of the scratch is kept");
    expect(d.there ? refusal == 0 || refusal == 6 || refusal == 7 : refusal == 4, "a refusal of a text");
    expect(inside || refusal == 6 || !d.there, "outside is 6");
    if (refusal != 0) return expect(place == 0 && at == 0 && count == 0, "no text, no numbers");
    if (place == 1) return expect(at == start && count == length, "a text in the message is where it was asked for");
    expect(place == 2 && at == 0 && count <= length, "a decoded text is no longer");
}

// Asks for the first raw values of an accepted message too, so that what must be decoded is met often.
void on_values(const uint8_t *bytes, size_t n, const Dials &d, const Read &r, bool high) {
    const uint8_t *end = bytes + r.place, *q = bytes + r.start;
    for (unsigned i = 0; i < 6; i++) {
        q = std::find_if(q, end, [](uint8_t b) { return b == '"' || b == '\''; });
        const uint8_t *close = q == end ? end : std::find(q + 1, end, *q);
        if (close == end) return;
        on_text(bytes, n, d, (uint64_t)(q + 1 - bytes), (uint64_t)(close - q - 1), high);
        q = close + 1;
    }
}

void all_calls(const uint8_t *bytes, size_t n, const Dials &d, bool high) {
    Read r = on_read(bytes, n);
    on_check(bytes, n, r);
    on_text(bytes, n, d, d.start, d.length, high);
    if (r.answer == 0) on_values(bytes, n, d, r, high);
    on_receive(bytes, n, d, r, high);
    on_send(bytes, n, d, high);
}

}  // namespace

extern "C" int LLVMFuzzerTestOneInput(const uint8_t *data, size_t size) {
    static Fence fence;
    Dials d = take_dials(data, size);
    std::string in = stretched(data, size, d);
    for (bool high : {true, false}) {
        uint8_t *bytes = fence.lend(in.size(), high);
        memcpy(bytes, in.data(), in.size());
        all_calls(bytes, in.size(), d, high);
        expect(memcmp(bytes, in.data(), in.size()) == 0 && fence.side_kept(), "the input is kept");
    }
    return 0;
}
