/* The benchmark's baseline in C: what `meshlines` does, by the same algorithm and with nothing proved. It reads house text from
   standard input and writes the array text or the refusal. harness/src/plain.rs is the same without the text. No header is
   needed, so that any C compiler for the programs' machine builds it. */

typedef unsigned short u16;
typedef unsigned char u8;

long read(int, void *, unsigned long);
long write(int, const void *, unsigned long);

enum { MOST = 1024, UNUSED = 65535, HEAD = 6, FRAME = 12, EDGE_FRAME = 13 };
enum { LONGEST = HEAD + FRAME * (2 * MOST - 4 + MOST - 3) };

static u8 text[LONGEST + 1], out[HEAD + EDGE_FRAME * 3 * MOST];
static u16 ts[3 * (LONGEST / FRAME + 1)], ws[9 + 3 * (LONGEST / FRAME + 1)];
static u16 twins[6 * MOST], places[3 * MOST], references[6 * MOST], first[MOST], count[MOST];
static u8 service[3 * MOST], ends[MOST];
static int n, corners, targets; /* corners, targets: how many numbers the tables hold */

static int next(int p) { return 3 * (p / 3) + (p + 1) % 3; }

static int find_side(int a, int b) {
    for (int p = 0; p < corners; p += 3) {
        int x = ts[p], y = ts[p + 1], z = ts[p + 2];
        if (x == a && y == b) return p;
        if (y == a && z == b) return p + 1;
        if (z == a && x == b) return p + 2;
    }
    return corners;
}

static int turn(int p) { return twins[next(next(p))]; }

static int turn_misses(void) {
    for (int v = 0; v < n; v++) count[v] = 0;
    for (int p = corners - 1; p >= 0; p--) {
        first[ts[p]] = p;
        count[ts[p]]++;
    }
    for (int v = 0; v < n; v++) {
        if (count[v] == 0) return 1;
        int met = 1;
        for (int p = turn(first[v]); p != first[v]; p = turn(p)) met++;
        if (met != count[v]) return 1;
    }
    return 0;
}

/* 3 to 8 */
static int check_triangles(void) {
    for (int p = 0; p < corners; p++)
        if (ts[p] >= n) return 3;
    for (int p = 0; p < corners; p++)
        if (ts[p] == ts[next(p)]) return 4;
    for (int p = 0; p < corners; p++)
        if (find_side(ts[p], ts[next(p)]) < p) return 5;
    for (int p = 0; p < corners; p++) {
        int q = find_side(ts[next(p)], ts[p]);
        if (q == corners) return 6;
        twins[p] = q;
    }
    int outer = find_side(0, 2);
    if (outer == corners || ts[next(next(outer))] != 1) return 7;
    return turn_misses() ? 8 : 0;
}

static int used(int e) { return e >= 9 || e == 3 || e == 6 || e == 7; }

static int pair_taken(int e) {
    int u = e / 3, v = ws[e];
    for (int d = 3 * u; d < e; d++)
        if (ws[d] == v) return 1;
    for (int d = 3 * v; d < 3 * v + 3; d++)
        if (d < e && used(d) && ws[d] == u) return 1;
    return 0;
}

static int edge_between(int a, int b) {
    for (int e = 3 * a; e < 3 * a + 3; e++)
        if (ws[e] == b) return e;
    for (int e = 3 * b; e < 3 * b + 3; e++)
        if (ws[e] == a) return e;
    return UNUSED;
}

/* the colour of the edge that leaves a for b, 3 where there is none */
static int colour_to(int a, int b) {
    for (int c = 0; c < 3; c++)
        if (ws[3 * a + c] == b) return c;
    return 3;
}

/* the sides at p and then at q round v keep the turn rule as far as it is sector c's: from the edge out of colour c, over edges
   into v of colour c+2, to the edge out of colour c+1 */
static int sides_keep(int v, int c, int p, int q) {
    int here = ts[next(p)], there = ts[next(q)];
    int out = colour_to(v, here), into = out < 3 ? 3 : colour_to(here, v);
    int sector = out < 3 ? out : into < 3 ? (into + 1) % 3 : 3;
    if (sector != c) return sector < 3;
    out = colour_to(v, there);
    return out < 3 ? out == (c + 1) % 3 : colour_to(there, v) == (c + 2) % 3;
}

/* one whole turn round v for each sector */
static int turn_holds(int v, int c) {
    int p = places[3 * v];
    do {
        int q = turn(p);
        if (!sides_keep(v, c, p, q)) return 0;
        p = q;
    } while (p != places[3 * v]);
    return 1;
}

static int path_broken(int c) {
    for (int v = 0; v < n; v++) ends[v] = 0;
    for (int v = 3; v < n; v++) {
        int u = v, steps = 0;
        for (; u >= 3 && !ends[u] && steps < n; steps++) u = ws[3 * u + c];
        if (u < 3 ? u != c : !ends[u]) return 1;
        for (u = v; u >= 3 && !ends[u]; u = ws[3 * u + c]) ends[u] = 1;
    }
    return 0;
}

/* 9 to 13; the anchors' nine are read_text's own */
static int check_wood(void) {
    for (int e = 9; e < 3 * n; e++)
        if (ws[e] >= n) return 9;
    for (int e = 0; e < 3 * n; e++) places[e] = UNUSED;
    for (int p = 0; p < corners; p++)
        for (int e = 3 * ts[p]; e < 3 * ts[p] + 3; e++)
            if (ws[e] == ts[next(p)]) places[e] = p;
    for (int e = 0; e < 3 * n; e++)
        if (used(e) && (places[e] == UNUSED || pair_taken(e))) return 10;
    for (int e = 9; e < 3 * n; e++)
        if (ws[e] < 3 && e % 3 != ws[e]) return 11;
    for (int v = 3; v < n; v++)
        for (int c = 0; c < 3; c++)
            if (!turn_holds(v, c)) return 12;
    for (int c = 0; c < 3; c++)
        if (path_broken(c)) return 13;
    return 0;
}

static void fill(void) {
    for (int j = 0; j < 3 * n; j++) {
        references[2 * j] = references[2 * j + 1] = UNUSED;
        service[j] = 0;
        if (!used(j)) continue;
        for (int hand = 0; hand < 2; hand++) {
            int p = hand == 0 ? places[j] : twins[places[j]];
            int corner = ts[next(next(p))];
            references[2 * j + hand] = edge_between(ws[j], corner);
            service[j] |= (edge_between(j / 3, corner) / 3 == j / 3) << hand;
        }
    }
}

static int digit(u8 b) { return b >= '0' && b <= '9' ? b - '0' : b >= 'A' && b <= 'F' ? b - 'A' + 10 : -1; }

static int number(const u8 *at) {
    int a = digit(at[0]), b = digit(at[1]), c = digit(at[2]);
    return a < 0 || b < 0 || c < 0 ? -1 : 256 * a + 16 * b + c;
}

/* a frame of that code at `at`, its three numbers into `to` */
static int frame(const u8 *at, char code, u16 *to) {
    if (at[0] != '0' || at[1] != code || at[11] != '\n') return 0;
    for (int k = 0; k < 3; k++) {
        int x = number(at + 2 + 3 * k);
        if (x < 0) return 0;
        to[k] = x;
    }
    return 1;
}

/* 19 and 20 */
static int read_text(void) {
    static const u16 anchors[9] = {UNUSED, UNUSED, UNUSED, 0, UNUSED, UNUSED, 0, 1, UNUSED};
    long length = 0, got;
    while (length <= LONGEST && (got = read(0, text + length, LONGEST + 1 - length)) > 0) length += got;
    if (length > LONGEST) return 19;
    if (length < HEAD || (length - HEAD) % FRAME != 0) return 20;
    if (text[0] != '0' || text[1] != '0' || text[5] != '\n' || (n = number(text + 2)) < 0) return 20;
    for (int k = 0; k < 9; k++) ws[k] = anchors[k];
    corners = 0, targets = 9;
    for (const u8 *at = text + HEAD; at < text + length; at += FRAME) {
        if (targets == 9 && frame(at, '1', ts + corners)) corners += 3;
        else if (frame(at, '2', ws + targets)) targets += 3;
        else return 20;
    }
    return 0;
}

static u8 *put(u8 *at, int x, int digits) {
    for (int k = digits - 1; k >= 0; k--, x /= 16) at[k] = "0123456789ABCDEF"[x % 16];
    return at + digits;
}

static u8 *put_array(u8 *at) {
    at = put(put(at, 0, 2), n, 3);
    *at++ = '\n';
    for (int j = 0; j < 3 * n; j++) {
        if (!used(j)) continue;
        at = put(put(at, 3, 2), j, 3);
        at = put(put(at, references[2 * j], 3), references[2 * j + 1], 3);
        at = put(at, service[j], 1);
        *at++ = '\n';
    }
    return at;
}

int main(void) {
    int refused = read_text();
    if (!refused) refused = n < 3 || n > MOST ? 1 : corners != 6 * n - 12 || targets != 3 * n ? 2 : 0;
    if (!refused) refused = check_triangles();
    if (!refused) refused = check_wood();
    u8 *end = out;
    if (refused) {
        end = put(put(out, 15, 2), refused, 2);
        *end++ = '\n';
    } else {
        fill();
        end = put_array(out);
    }
    for (u8 *at = out; at < end;) {
        long put = write(1, at, end - at);
        if (put <= 0) return 1;
        at += put;
    }
    return 0;
}
