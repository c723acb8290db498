// Holds the library against expat and libxml2, on messages made at random and damaged at random.
// Arguments: how many cases, the seed, the first case. A case depends on the seed and its number alone.
#include <cstdio>
#include <cstdlib>
#include <map>
#include <string>

#include "inputs.hpp"
#include "judge.hpp"
#include "ours.hpp"
#include "peers.hpp"
#include "random.hpp"
#include "reasons.hpp"

namespace {

using Counts = std::map<std::string, unsigned long>;

// What was seen in all cases.
struct Tally {
    unsigned long answers[4] = {0, 0, 0, 0}, verdicts[7] = {0, 0, 0, 0, 0, 0, 0}, values = 0, beginnings = 0, streams = 0, cuts = 0, failed = 0, printed = 0;
    Counts refused_alone, expat_alone, libxml_alone;
};

Tally tally;
uint64_t seed = 1;

std::string shown(const Bytes &b) {
    std::string s;
    char hex[5];
    for (unsigned char c : b.substr(0, 8000)) {
        snprintf(hex, sizeof hex, "\\x%02x", c);
        s += c == '\\' ? "\\\\" : c >= 0x20 && c < 0x7f ? std::string(1, (char)c) : hex;
    }
    return b.size() > 8000 ? s + ".." : s;
}

std::string shown(const Answer &a) {
    return std::to_string(a.number) + ", start " + std::to_string(a.start) + ", place " + std::to_string(a.place);
}

struct Case {
    uint64_t number;
    bool failed = false;

    // Tells a disagreement: what it is about, the input, and what each says.
    void fail(const char *about, const Bytes &in, const std::string &ours, const std::string &theirs) {
        failed = true;
        if (++tally.printed > 20) return;
        printf("case %lu of seed %lu: %s\n  input (%zu bytes): %s\n  we: %s\n  they: %s\n", (unsigned long)number, (unsigned long)seed, about, in.size(),
               shown(in).c_str(), ours.c_str(), theirs.c_str());
    }
};

// The document with version 1.0 in its declaration where it has 1.1.
Bytes as_ten(Bytes d) {
    size_t q = begins(d, 0, "<?xml") ? d.find_first_of("\"'") : Bytes::npos;
    if (q != Bytes::npos && begins(d, q + 1, "1.1") && q + 4 < d.size() && d[q + 4] == d[q]) d[q + 3] = '0';
    return d;
}

std::string shown(const Verdict &v) {
    std::string s = "refusal " + std::to_string(v.refusal) + ", kind " + std::to_string(v.kind) + ", id " + shown(v.id);
    for (size_t i = 0; i < v.values.size(); i++)
        if (!(v.values[i] == Value()))
            s += ", cell " + std::to_string(i) + ": " + std::to_string(v.values[i].there) + " " + std::to_string(v.values[i].number) + " " + shown(v.values[i].text);
    return s;
}

// The check says the same of start and end as the reader, and of a message what the table says of a peer's tree.
void checked(Case &c, const Bytes &in, const Answer &a, const Tree &tree) {
    tryphomel_checked found;
    Verdict want;
    memset(&found, 0xa5, sizeof found);
    tryphomel_message_check(in.data(), in.size(), &found);
    Verdict ours = said_in(in, found.refusal, found.message);
    want.refusal = a.number;
    if (a.number == 0) want = verdict(tree);
    if (a.number == 0) tally.verdicts[want.refusal]++;
    if (ours == want && found.start == a.start && found.end == (a.number ? 0 : a.place) && found.place == (a.number == 2 ? a.place : 0)) return;
    c.fail("the check", in, shown(ours) + ", start " + std::to_string(found.start) + ", end " + std::to_string(found.end) + ", place " + std::to_string(found.place),
           shown(want) + "; the reader: " + shown(a));
}

unsigned long values_in(const Tree &t) {
    unsigned long n = 0;
    for (size_t i = 1; i < t.size(); i++) n += t[i] == '=' && t[i - 1] == '\0';
    return n;
}

// A message that we accept: each peer takes it, and reads the same tree.
void accepted(Case &c, const Bytes &in, const Answer &a) {
    Bytes d = as_ten(in.substr(a.start, a.place - a.start));
    Word e = by_expat(d), x = by_libxml(d);
    if (!e.good) c.fail("expat refuses what we accept", in, shown(a), "not well-formed");
    if (!x.good) c.fail("libxml2 refuses what we accept", in, shown(a), "not well-formed");
    if (!e.good || !x.good) return;
    Tree ours = tree_of(in, a.start, a.place);
    tally.values += values_in(ours);
    if (e.tree != ours) c.fail("expat reads another tree", in, shown(ours), shown(e.tree));
    if (x.tree != ours) c.fail("libxml2 reads another tree", in, shown(ours), shown(x.tree));
    checked(c, in, a, e.tree);
}

// What we do not accept: expat sees no error in what we call open; no peer takes what we call a beginning; and if both peers take what we refuse,
// document 01 has a reason not to.
void not_accepted(Case &c, const Bytes &in, const Answer &a) {
    size_t open = a.number == 2 ? a.place : a.number == 3 ? a.start + 65536 : in.size();
    if (!begins_by_expat(as_ten(in.substr(a.start, open - a.start)))) c.fail("expat sees an error in what we call open", in, shown(a), "not well-formed");
    checked(c, in, a, Tree());
    Bytes d = in.substr(a.start);
    bool e = by_expat(as_ten(d)).good, x = by_libxml(as_ten(d)).good;
    if (!e && !x) return;
    const char *why = why_refused(d, a.number, a.place - a.start);
    (e && x ? tally.refused_alone : e ? tally.expat_alone : tally.libxml_alone)[why ? why : "unexplained"]++;
    if (a.number == 1) c.fail("a peer accepts what we call a beginning", in, shown(a), "well-formed");
    else if (!why && e && x) c.fail("both peers accept what we refuse", in, shown(a), "well-formed");
}

void one_beginning(Case &c, const Bytes &in, const Answer &a, size_t k) {
    Answer b = read(in.data(), k);
    tally.beginnings++;
    if (!(b == Answer{1, std::min(k, a.start), 0})) c.fail("a beginning", in.substr(0, k), shown(b), "is to be 1");
}

// All before the end of a message, or up to the place that is malformed, is answered 1; one byte more, and the place is told.
void beginnings(Case &c, Random &r, const Bytes &in, const Answer &a) {
    size_t end = a.number == 0 ? a.place : a.number == 2 ? a.place + 1 : std::min(in.size(), a.start + 65536);
    if (end <= 120 || (end <= 500 && r.one_in(16)))
        for (size_t k = 0; k < end; k++) one_beginning(c, in, a, k);
    else
        for (unsigned i = 0; i < 8; i++) one_beginning(c, in, a, r.below(end));
    if ((a.number == 0 || a.number == 2) && !(read(in.data(), end) == a)) c.fail("bytes behind the end or the place matter", in, shown(a), shown(read(in.data(), end)));
}

// A stream of messages and glue has the same cuts however it comes.
void stream(Case &c, Random &r) {
    Bytes s = glue(r);
    for (unsigned n = r.from_to(1, 6); n; n--) s += (r.one_in(8) ? input(r) : Maker(r, Wide()).message().bytes) + glue(r);
    Cuts whole = cuts_of_whole(s), runs = cuts_by_runs(r, s);
    tally.streams++;
    tally.cuts += whole.parts.size();
    if (!(whole == runs))
        c.fail("a stream is cut another way in runs", s, std::to_string(runs.parts.size()) + " messages, " + shown(runs.last),
               std::to_string(whole.parts.size()) + " messages, " + shown(whole.last));
}

void run(uint64_t number) {
    Random r = random_of(seed, number);
    Case c{number};
    Bytes in = input(r);
    Answer a = read(in.data(), in.size());
    tally.answers[a.number & 3]++;
    if (a.number == 0) accepted(c, in, a);
    else not_accepted(c, in, a);
    beginnings(c, r, in, a);
    if (r.one_in(4)) stream(c, r);
    tally.failed += c.failed;
}

void print(const char *title, const Counts &counts) {
    printf("%s\n", title);
    for (auto &k : counts) printf("  %8lu  %s\n", k.second, k.first.c_str());
}

}  // namespace

int main(int count, char **words) {
    unsigned long cases = count > 1 ? strtoul(words[1], nullptr, 10) : 1000000;
    seed = count > 2 ? strtoul(words[2], nullptr, 10) : 1;
    unsigned long first = count > 3 ? strtoul(words[3], nullptr, 10) : 0;
    tally.refused_alone["unexplained"] = 0;
    for (unsigned long i = 0; i < cases; i++) run(first + i);
    printf("answers 0 to 3: %lu %lu %lu %lu; values compared with each peer: %lu; beginnings: %lu; streams: %lu, of %lu messages\n", tally.answers[0],
           tally.answers[1], tally.answers[2], tally.answers[3], tally.values, tally.beginnings, tally.streams, tally.cuts);
    printf("messages checked, by refusal 0, 4, 5, 6: %lu %lu %lu %lu\n", tally.verdicts[0], tally.verdicts[4], tally.verdicts[5], tally.verdicts[6]);
    print("both peers accept, we refuse, because of:", tally.refused_alone);
    print("expat alone accepts, we refuse:", tally.expat_alone);
    print("libxml2 alone accepts, we refuse:", tally.libxml_alone);
    printf("%lu passed, %lu failed\n", cases - tally.failed, tally.failed);
    return tally.failed ? 1 : 0;
}
