// A plain judge of the same rules, to measure against: one pass, a class table, a hash table for the references.
// It gives 0 for an accepted interchange, or the refusal: its place in the lowest 20 bits, the ordinal of its segment in the next 20, its number above.
#include <stdbool.h>
#include <stddef.h>
#include <stdint.h>
#include <string.h>

enum { MOST = 65535, MESSAGES = 4096, HEADERS = 9, ELEMENTS = 5, COMPONENTS = 3 };
enum { DATA, COMPONENT, REPETITION, ELEMENT, END, RELEASE, OUTSIDE };    // classes of octets
enum group { IDLE, OPENED, HEADER, CERTIFICATE, BODY, ACK, TRAILER };    // what is open

typedef struct { const uint8_t *p; size_t n; } text;
typedef struct { text part[COMPONENTS]; unsigned parts; bool repeats; } element;
typedef struct { text ref; unsigned segments; bool named; } header;

typedef struct {
    const uint8_t *s;
    size_t n;
    uint8_t component, separator, release, repetition, end;
    int version;
    uint8_t class[256];
    // the segment now read
    element e[ELEMENTS];
    unsigned elements;
    bool repeats;
    size_t bad;    // first octet outside the repertoire, or n
    size_t behind; // the place behind its tag
    // the message now open
    enum group group;
    bool autack, gs1, usr, any, filled, uneven, controlled, differs;
    unsigned usas, certificates, segments, headers, own;
    header h[HEADERS];
    header *named;
    uint64_t claim;
    int64_t grams, control;
    text unb, unh;
    // the messages before it
    unsigned messages;
    text ref[MESSAGES];
    uint32_t mask;
    uint16_t slot[2 * MESSAGES];
    // contents that had releases
    size_t freed;
    uint8_t room[MOST];
} judge;

#define TAG(a, b, c) ((uint32_t)(a) << 16 | (b) << 8 | (c))
#define REFUSED(number, place, segment) ((uint64_t)(number) << 40 | (uint64_t)(segment) << 20 | (place))
#define IS(x, literal) ((x).n == sizeof literal - 1 && memcmp((x).p, literal, sizeof literal - 1) == 0)

static bool same(text a, text b) { return a.n == b.n && memcmp(a.p, b.p, a.n) == 0; }

static bool letter(uint8_t b) { return (b >= 'A' && b <= 'Z') || (b >= 'a' && b <= 'z'); }
static bool digit(uint8_t b) { return b >= '0' && b <= '9'; }
static bool tag_octet(uint8_t b) { return (b >= 'A' && b <= 'Z') || digit(b); }
static bool servant(uint8_t b) { return b >= 0x21 && b <= 0x7E && !letter(b) && !digit(b); }

static void fill(judge *j, int from, int to) { memset(j->class + from, DATA, to - from + 1); }

static void make_classes(judge *j, char level) {
    memset(j->class, OUTSIDE, 256);
    if (level == 'C' || level == 'D') {
        fill(j, 0x20, 0x7E);
        fill(j, 0xA0, 0xFF);
    } else {
        fill(j, ' ', '"');
        fill(j, '%', '?');
        fill(j, 'A', 'Z');
        if (level == 'B') fill(j, 'a', 'z');
    }
    j->class[j->repetition] = REPETITION;
    j->class[j->release] = RELEASE;
    j->class[j->component] = COMPONENT;
    j->class[j->separator] = ELEMENT;
    j->class[j->end] = END;
    j->class[' '] = DATA;
}

// Goes to the terminator, from behind the tag; n if there is none.
static size_t skip(judge *j, size_t i) {
    const uint8_t *s = j->s;
    size_t n = j->n;
    j->bad = n;
    for (; i < n; i++) {
        uint8_t c = j->class[s[i]];
        if (c < END) continue;
        if (c == END) return i;
        if (c == RELEASE && ++i < n) c = j->class[s[i]];
        if (c == OUTSIDE && j->bad == n) j->bad = i;
    }
    return n;
}

// The content of the part from a to e. It is copied only if it has releases.
static text content(judge *j, size_t a, size_t e, bool releases) {
    if (!releases) return (text){j->s + a, e - a};
    text x = {j->room + j->freed, 0};
    for (size_t i = a; i < e; i++) {
        if (j->class[j->s[i]] == RELEASE) i++;
        j->room[j->freed++] = j->s[i];
        x.n++;
    }
    return x;
}

// The same, and notes the elements on the way.
static size_t split(judge *j, size_t i) {
    const uint8_t *s = j->s;
    size_t n = j->n, start = i + 1;
    bool releases = false, repeats = false, any = false;
    unsigned parts = 0, elements = 0;
    j->bad = n;
    for (unsigned k = 0; k < ELEMENTS; k++) {
        j->e[k].parts = 0;
        j->e[k].repeats = false;
    }
    j->elements = 0;
    j->repeats = false;
    if (s[i] == j->end) return i;
    for (i = start; i < n; i++) {
        uint8_t c = j->class[s[i]];
        if (c == DATA) continue;
        if (c > END) {
            if (c == RELEASE) {
                releases = true;
                if (++i < n) c = j->class[s[i]];
            }
            if (c == OUTSIDE && j->bad == n) j->bad = i;
            continue;
        }
        if (elements < ELEMENTS && parts < COMPONENTS && !repeats)
            j->e[elements].part[parts] = content(j, start, i, releases);
        releases = false;
        start = i + 1;
        if (!repeats) parts++;
        if (c == COMPONENT) continue;
        if (c == REPETITION) {
            repeats = any = true;
            continue;
        }
        if (elements < ELEMENTS) {
            j->e[elements].parts = parts;
            j->e[elements].repeats = repeats;
        }
        elements++;
        parts = 0;
        repeats = false;
        if (c == END) {
            j->elements = elements;
            j->repeats = any;
            return i;
        }
    }
    return n;
}

// Component c of element e, from 0, however far behind in the segment, and in x how many components that element has and whether it repeats.
static text far(judge *j, unsigned e, unsigned c, element *x) {
    text found = {j->s, 0};
    size_t start = j->behind + 1;
    bool releases = false;
    unsigned k = 0;
    x->parts = 0, x->repeats = false;
    if (j->s[j->behind] == j->end) return found;
    for (size_t i = start;; i++) {
        uint8_t class = j->class[j->s[i]];
        if (class == DATA) continue;
        if (class == RELEASE) {
            releases = true;
            i++;
            continue;
        }
        if (k == e && !x->repeats && x->parts++ == c) found = content(j, start, i, releases);
        releases = false;
        start = i + 1;
        if (k == e && class == REPETITION) x->repeats = true;
        if (class == COMPONENT || class == REPETITION) continue;
        if (k == e || class == END) return found;
        k++;
    }
}

// Whether element e, from 0, is there, not repeated and of one component; of a reference spaces do not count.
static bool there(judge *j, unsigned e, bool spaces) {
    element x;
    text t = far(j, e, 0, &x);
    while (!spaces && t.n > 0 && t.p[t.n - 1] == ' ') t.n--;
    return t.n > 0 && !x.repeats && x.parts == 1;
}

// Component c of element e, from 0; empty if it is not there.
static text at(const judge *j, unsigned e, unsigned c) {
    return c < j->e[e].parts ? j->e[e].part[c] : (text){j->s, 0};
}

static bool sized(const judge *j, unsigned e, unsigned c, size_t least, size_t most) {
    text x = at(j, e, c);
    return x.n >= least && x.n <= most;
}

static bool digits(const judge *j, unsigned e, unsigned c, size_t least, size_t most) {
    text x = at(j, e, c);
    for (size_t i = 0; i < x.n; i++)
        if (!digit(x.p[i])) return false;
    return x.n >= least && x.n <= most;
}

static bool composite(const judge *j, unsigned e, size_t least, size_t most) {
    return !j->e[e].repeats && sized(j, e, 0, least, most);
}

static bool single(const judge *j, unsigned e, size_t least, size_t most) {
    return composite(j, e, least, most) && j->e[e].parts <= 1;
}

// A reference as it is compared: spaces at its end don't count.
static text reference(const judge *j, unsigned e) {
    text x = at(j, e, 0);
    while (x.n > 0 && x.p[x.n - 1] == ' ') x.n--;
    return x;
}

// Spaces count in its length, and it is not made only of them.
static bool named(const judge *j, unsigned e, size_t most) { return single(j, e, 1, most) && reference(j, e).n > 0; }

static bool count(const judge *j, unsigned e) {
    return !j->e[e].repeats && j->e[e].parts <= 1 && digits(j, e, 0, 1, 6);
}

// S508; in the earlier edition, version 2, it begins with 0560.
static bool value(const judge *j, unsigned e) {
    if (j->version == 2) return composite(j, e, 0, 256);
    return composite(j, e, 1, 3) && sized(j, e, 1, 0, 512);
}

static uint64_t number(text x) {
    uint64_t v = 0;
    for (size_t i = 0; i < x.n; i++) v = v * 10 + (x.p[i] - '0');
    return v;
}

// Whole and decimal digits of the unit; 0 if it is none.
static unsigned unit(text x, unsigned kgm, unsigned tne, unsigned *decimals) {
    if (IS(x, "KGM")) return *decimals = 3, kgm;
    if (IS(x, "TNE")) return *decimals = 6, tne;
    return 0;
}

// One minus may lead.
static bool grams(text x, unsigned whole, unsigned decimals, int64_t *sum) {
    int64_t v = 0;
    size_t i = 0;
    bool minus = x.n && x.p[0] == '-';
    if (minus) x.p++, x.n--;
    for (; i < x.n && digit(x.p[i]); i++) v = i < whole ? v * 10 + (x.p[i] - '0') : 0;
    if (i == 0 || i > whole) return false;
    if (i < x.n) {
        if (x.p[i] != '.' && x.p[i] != ',') return false;
        if (++i == x.n) return false;
        for (; i < x.n; i++, decimals--) {
            if (!digit(x.p[i]) || decimals == 0) return false;
            v = v * 10 + (x.p[i] - '0');
        }
    }
    while (decimals-- > 0) v *= 10;
    *sum = minus ? -v : v;
    return true;
}

// Puts a reference among those used; false if it is there.
static bool use(judge *j, text x) {
    uint32_t h = 2166136261u;
    for (size_t i = 0; i < x.n; i++) h = (h ^ x.p[i]) * 16777619u;
    for (h ^= h >> 15;; h++) {
        uint16_t *k = &j->slot[h & j->mask];
        if (*k == 0) {
            j->ref[j->messages++] = x;
            *k = j->messages;
            return true;
        }
        if (same(j->ref[*k - 1], x)) return false;
    }
}

static header *find(judge *j, text x) {
    for (unsigned i = 0; i < j->headers; i++)
        if (same(j->h[i].ref, x)) return &j->h[i];
    return NULL;
}

static bool in_heads(const judge *j) { return j->group >= OPENED && j->group <= CERTIFICATE; }
static bool may_close(const judge *j) { return !j->autack || j->group == TRAILER || (j->group == ACK && j->filled); }
static bool even(const judge *j) { return j->version == 2 || j->named == NULL || j->claim == j->named->segments + j->own; }

// In the GS1 subset each header has a USC.
static bool uncertified(const judge *j) { return j->gs1 && j->group == HEADER; }

static int on_unh(judge *j) {
    if (j->group != IDLE) return 7;
    if (!named(j, 0, 14) || !composite(j, 1, 1, 6)) return 8;
    j->unh = reference(j, 0);
    if (!use(j, j->unh)) return 9;
    j->group = OPENED;
    j->autack = IS(at(j, 1, 0), "AUTACK");
    element x;
    j->gs1 = j->autack && IS(far(j, 1, 4, &x), "EAN001");
    j->segments = 1;
    j->headers = 0;
    j->named = NULL;
    j->uneven = j->controlled = j->differs = false;
    j->grams = 0;
    return 0;
}

static int on_unt(judge *j) {
    if (!may_close(j)) return 7;
    if (!count(j, 0) || !named(j, 1, MOST)) return 8;
    if (!same(reference(j, 1), j->unh)) return 9;
    for (unsigned i = 0; i < j->headers; i++)
        if (!j->h[i].named) return 9;
    if (number(at(j, 0, 0)) != j->segments || j->uneven || !even(j)) return 10;
    if (j->differs || (j->controlled && j->control != j->grams)) return 10;
    j->group = IDLE;
    return 0;
}

static int on_unz(judge *j) {
    if (j->group != IDLE || j->messages == 0) return 7;
    if (!count(j, 0) || !named(j, 1, MOST)) return 8;
    if (!same(reference(j, 1), j->unb)) return 9;
    return number(at(j, 0, 0)) == j->messages ? 0 : 10;
}

static int on_ush(judge *j) {
    if (!in_heads(j) || uncertified(j) || j->headers == HEADERS) return 7;
    if (!single(j, 0, 1, 3) || !named(j, 1, 14) || !single(j, 2, 1, 3) || !single(j, 3, 0, 3) || !single(j, 4, 0, 3)) return 8;
    text ref = reference(j, 1), scope = at(j, 2, 0);
    if (find(j, ref)) return 9;
    if (j->gs1 ? !IS(scope, "3") : j->autack ? !IS(scope, "F01") : !IS(scope, "1") && !IS(scope, "2")) return 11;
    j->h[j->headers++] = (header){ref, 1, false};
    j->group = HEADER;
    j->usas = 0;
    j->certificates = 0;
    return 0;
}

static int on_usa(judge *j) {
    if (j->group != HEADER && (j->group != CERTIFICATE || j->usr)) return 7;
    if (j->usas++ == 3) return 7;
    j->h[j->headers - 1].segments++;
    return 0;
}

static int on_usc(judge *j) {
    if ((j->group != HEADER && j->group != CERTIFICATE) || j->certificates++ == 2) return 7;
    if (j->gs1 && !there(j, 0, true)) return 8;
    j->group = CERTIFICATE;
    j->usas = 0;
    j->usr = false;
    j->h[j->headers - 1].segments++;
    return 0;
}

static int on_usr(judge *j) {
    if ((j->group != CERTIFICATE && j->group != TRAILER) || j->usr) return 7;
    if (!value(j, 0)) return 8;
    j->usr = true;
    if (j->group == TRAILER) j->own++;
    else j->h[j->headers - 1].segments++;
    return 0;
}

static int on_ust(judge *j) {
    if (!may_close(j)) return 7;
    bool counted = j->version != 2;    // the earlier edition has no 0588
    if (!named(j, 0, 14) || (counted && !count(j, 1))) return 8;
    header *h = find(j, reference(j, 0));
    if (h == NULL || h->named) return 9;
    if (!even(j)) j->uneven = true;
    h->named = true;
    j->named = h;
    j->claim = counted ? number(at(j, 1, 0)) : 0;
    j->own = 1;
    j->group = TRAILER;
    j->usr = false;
    return 0;
}

static int on_usb(judge *j) {
    if (!in_heads(j) || uncertified(j) || !j->autack || j->headers == 0) return 7;
    if (!single(j, 0, 1, 3)) return 8;
    if (j->gs1 && !IS(at(j, 0, 0), "1") && !IS(at(j, 0, 0), "2")) return 8;
    j->group = ACK;
    j->any = j->filled = false;
    return 0;
}

static int on_usx(judge *j) {
    if (j->group != ACK || (j->any && !j->filled)) return 7;
    if (!named(j, 0, 14) || (j->gs1 && !there(j, 6, false))) return 8;
    j->any = true;
    j->filled = false;
    return 0;
}

static int on_usy(judge *j) {
    if (j->group != ACK || !j->any) return 7;
    if (!named(j, 0, 14) || !value(j, 1)) return 8;
    j->filled = true;
    return find(j, reference(j, 0)) ? 0 : 9;
}

static int on_item(judge *j) {
    if (j->autack || (!in_heads(j) && j->group != BODY)) return 7;
    j->group = BODY;
    return 0;
}

static int on_qty(judge *j) {
    unsigned whole, decimals;
    int64_t v;
    if (on_item(j)) return 7;
    if (j->repeats) return 8;
    if (j->elements != 1 || j->e[0].parts != 3 || !(whole = unit(at(j, 0, 2), 9, 6, &decimals))) return 0;
    if (!grams(at(j, 0, 1), whole, decimals, &v)) return 12;
    j->grams += v;
    return 0;
}

static int on_cnt(judge *j) {
    unsigned whole, decimals;
    int64_t v;
    if (on_item(j)) return 7;
    if (j->repeats) return 8;
    if (!IS(at(j, 0, 0), "1")) return 0;
    if (j->elements != 1 || j->e[0].parts != 3 || !(whole = unit(at(j, 0, 2), 12, 9, &decimals))) return 8;
    if (!grams(at(j, 0, 1), whole, decimals, &v)) return 8;
    if (j->controlled && j->control != v) j->differs = true;
    j->controlled = true;
    j->control = v;
    return 0;
}

// UNA: the service characters; false if it is bad.
static bool read_una(judge *j) {
    const uint8_t *s = j->s;
    if (j->n < 9) return false;
    j->component = s[3], j->separator = s[4], j->release = s[6], j->repetition = s[7], j->end = s[8];
    const uint8_t all[] = {s[3], s[4], s[8], s[6], s[7]};
    for (int i = 0; i < 5; i++) {
        if (!servant(all[i]) && (i < 3 || all[i] != ' ')) return false;
        for (int k = 0; k < i; k++)
            if (all[i] == all[k] && all[i] != ' ') return false;
    }
    return true;
}

static bool good_tag(const judge *j, size_t i) {
    const uint8_t *s = j->s + i;
    return j->n - i >= 4 && tag_octet(s[0]) && tag_octet(s[1]) && tag_octet(s[2]) && (s[3] == j->separator || s[3] == j->end);
}

// UNB at i: its refusal's number, or 0 and the place behind it.
static int read_unb(judge *j, size_t *i, bool una) {
    uint8_t repetition = j->repetition;
    size_t first = *i;
    j->repetition = ' ';
    make_classes(j, 'C');
    if (!good_tag(j, first)) return 4;
    if (split(j, first + 3) == j->n) return 4;
    if (memcmp(j->s + first, "UNB", 3) != 0) return 5;
    text level = at(j, 0, 0), version = at(j, 0, 1);
    if (!IS(version, "2") && !IS(version, "3") && !IS(version, "4")) return 6;
    j->version = version.p[0] - '0';
    if (!IS(level, "UNOA") && !IS(level, "UNOB") && !IS(level, "UNOC") && !(IS(level, "UNOD") && j->version == 2)) return 6;
    if (j->version == 4) j->repetition = repetition;
    else if (una && repetition != ' ') return 6;
    make_classes(j, level.p[3]);
    j->freed = 0;
    *i = split(j, first + 3) + 1;
    if (j->bad < j->n) return 3;
    size_t date = j->version == 4 ? 8 : 6;
    if (j->e[0].repeats || !composite(j, 1, 1, 35) || !composite(j, 2, 1, 35) || j->e[3].repeats) return 8;
    if (!digits(j, 3, 0, date, date) || !digits(j, 3, 1, 4, 4) || !named(j, 4, 14)) return 8;
    j->unb = reference(j, 4);
    return 0;
}

static bool checked(uint32_t tag) {
    switch (tag) {
    case TAG('U', 'N', 'H'): case TAG('U', 'N', 'T'): case TAG('U', 'N', 'Z'): case TAG('U', 'S', 'H'):
    case TAG('U', 'S', 'R'): case TAG('U', 'S', 'T'): case TAG('U', 'S', 'B'): case TAG('U', 'S', 'X'):
    case TAG('U', 'S', 'Y'): case TAG('Q', 'T', 'Y'): case TAG('C', 'N', 'T'):
        return true;
    }
    return false;
}

static int turn(judge *j, uint32_t tag) {
    if (tag == TAG('U', 'N', 'H')) return on_unh(j);
    if (tag == TAG('U', 'N', 'Z')) return on_unz(j);
    if (j->group == IDLE) return 7;
    j->segments++;
    switch (tag) {
    case TAG('Q', 'T', 'Y'): return on_qty(j);
    case TAG('C', 'N', 'T'): return on_cnt(j);
    case TAG('U', 'N', 'T'): return on_unt(j);
    case TAG('U', 'S', 'H'): return on_ush(j);
    case TAG('U', 'S', 'A'): return on_usa(j);
    case TAG('U', 'S', 'C'): return on_usc(j);
    case TAG('U', 'S', 'R'): return on_usr(j);
    case TAG('U', 'S', 'T'): return on_ust(j);
    case TAG('U', 'S', 'B'): return on_usb(j);
    case TAG('U', 'S', 'X'): return on_usx(j);
    case TAG('U', 'S', 'Y'): return on_usy(j);
    case TAG('U', 'N', 'A'): case TAG('U', 'N', 'B'): case TAG('U', 'N', 'G'): case TAG('U', 'N', 'E'):
    case TAG('U', 'N', 'O'): case TAG('U', 'N', 'P'): case TAG('U', 'S', 'D'): case TAG('U', 'S', 'U'): return 7;
    }
    return on_item(j);
}

uint64_t plain_judge(const uint8_t *s, size_t n) {
    judge work, *j = &work;    // the tables are not cleared as a whole
    if (n == 0 || n > MOST) return REFUSED(1, 0, 0);
    j->s = s, j->n = n, j->freed = 0, j->messages = 0, j->group = IDLE;
    j->component = ':', j->separator = '+', j->release = '?', j->repetition = '*', j->end = '\'';
    bool una = n >= 3 && memcmp(s, "UNA", 3) == 0;
    if (una && !read_una(j)) return REFUSED(2, 0, 0);
    size_t i = una ? 9 : 0;
    if (i == n) return REFUSED(5, n, 1);
    size_t first = i;
    int no = read_unb(j, &i, una);
    if (no) return REFUSED(no, no == 3 ? j->bad : first, 1);
    for (j->mask = 15; j->mask < n / 8; j->mask = 2 * j->mask + 1);    // a message has 16 octets or more
    memset(j->slot, 0, (j->mask + 1) * sizeof *j->slot);
    size_t segment = 2;
    while (i < n) {
        if (!good_tag(j, i)) return REFUSED(4, i, segment);
        uint32_t tag = TAG(s[i], s[i + 1], s[i + 2]);
        size_t e = checked(tag) ? split(j, i + 3) : skip(j, i + 3);
        if (e == n) return REFUSED(4, i, segment);
        if (j->bad < n) return REFUSED(3, j->bad, segment);
        j->behind = i + 3;
        no = turn(j, tag);
        if (no) return REFUSED(no, i, segment);
        i = e + 1;
        segment++;
        if (tag == TAG('U', 'N', 'Z')) return i == n ? 0 : REFUSED(7, i, segment);
    }
    return REFUSED(7, n, segment);
}
