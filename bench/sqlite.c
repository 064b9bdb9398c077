/* The peer: the same job as a competent engineer would do it with SQLite: sqlite OPERATION FOLDER [RUNS]
 *
 * Puts FOLDER/holding.csv into a database in memory, takes FOLDER/change.csv step by step in one transaction with immediate foreign keys,
 * keeping what each step replaces or removes, and writes the new holding, in order and renumbered, into one buffer and the file that takes
 * the steps back into another.
 *   none      stops before that, so that what a run costs besides can be taken off
 *   load      that job, once
 *   new       as load; leaves FOLDER/new-sqlite.csv and FOLDER/undo-sqlite.csv, and fails unless the undo gives the old holding back
 * With RUNS the load is made so many times, and the median time in microseconds printed.
 *
 * Content is stored as the bytes after the third field; keys and references become columns. In its favour: of a field's form only
 * keys and references are tested, no dates, texts or widths; a refusal just drops the database. Against it: it builds the database from
 * text and writes text, since the holding is text on both sides. What was tuned: rows by eights while loading, indexes after it, foreign
 * keys checked at once after it, no journal, pages of 8,192, updates first tried without the columns that refer, the old content caught by
 * the preupdate hook, which costs less than a session and its changeset, static libsqlite3.a, buffers bound and not copied.
 */
#define _GNU_SOURCE
#define SQLITE_ENABLE_PREUPDATE_HOOK 1
#include <fcntl.h>
#include <malloc.h>
#include <sqlite3.h>
#include <stdint.h>
#include <stdio.h>
#include <stdlib.h>
#include <string.h>
#include <sys/stat.h>
#include <time.h>
#include <unistd.h>

#define BATCH 8                /* rows per INSERT while the holding is loaded */
#define MAX_RECORDS 8192
#define MAX_CHANGES 4096

typedef unsigned char u8;

typedef struct { u8 *p; size_t n; } Buf;

static void die(const char *what) { fprintf(stderr, "sqlite: %s\n", what); exit(2); }
static void sqldie(sqlite3 *db, const char *what)
{
    fprintf(stderr, "sqlite: %s: %s\n", what, db ? sqlite3_errmsg(db) : "?");
    exit(2);
}
static void refuse(int code, long line) { printf("refused,%d,%ld\n", code, line); exit(1); }

static double now_us(void)
{
    struct timespec t;
    clock_gettime(CLOCK_PROCESS_CPUTIME_ID, &t);
    return t.tv_sec * 1e6 + t.tv_nsec / 1e3;
}

static Buf slurp(const char *dir, const char *name)
{
    char path[4096];
    struct stat st;
    Buf b;
    size_t got = 0;
    snprintf(path, sizeof path, "%s/%s", dir, name);
    int fd = open(path, O_RDONLY);
    if (fd < 0 || fstat(fd, &st)) die(path);
    b.n = (size_t)st.st_size;
    b.p = malloc(b.n + 1);
    while (got < b.n) {
        ssize_t r = read(fd, b.p + got, b.n - got);
        if (r <= 0) die(path);
        got += (size_t)r;
    }
    close(fd);
    return b;
}

/* a buffer with its pages touched, outside the timing */
static Buf room(size_t length)
{
    Buf b = { malloc(length + 1), 0 };
    if (!b.p) die("no memory");
    memset(b.p, 0, length + 1);
    return b;
}

static void leave(const char *dir, const char *name, Buf b)
{
    char path[4096];
    snprintf(path, sizeof path, "%s/%s", dir, name);
    FILE *f = fopen(path, "wb");
    if (!f || fwrite(b.p, 1, b.n, f) != b.n || fclose(f)) die(path);
}

/* ---------------------------------------------------------------- parsing */

enum { K11, K12, K21, K23, K24, NK };
static const int kind_no[NK] = { 11, 12, 21, 23, 24 };
static const int kind_fields[NK] = { 17, 10, 16, 11, 28 };

typedef struct {
    int kind;
    u8 op;                      /* 'I', 'U', 'D' */
    int64_t key, k2, k3;        /* number, or packed XREF_KEY / LPI_KEY; 12: USRN, type, id */
    int64_t ref, ref2;          /* 21: parent (0: none); 23: UPRN; 24: UPRN, USRN */
    const u8 *content;
    int content_len;
} Rec;

typedef struct { const u8 *p; const u8 *e; } Fld;

static int64_t num(Fld f, long line)
{
    int64_t v = 0;
    if (f.p == f.e || f.e - f.p > 16) refuse(5, line);
    for (const u8 *p = f.p; p < f.e; p++) {
        unsigned d = *p - '0';
        if (d > 9) refuse(5, line);
        v = v * 10 + d;
    }
    return v;
}

/* "nnnnXsssssssss" as a number: same order as the bytes */
static int64_t packed(Fld f, u8 letter, long line)
{
    int64_t v = 0;
    if (f.e - f.p != 16 || f.p[0] != '"' || f.p[15] != '"' || f.p[5] != letter) refuse(5, line);
    for (int i = 1; i < 15; i++) {
        if (i == 5) continue;
        unsigned d = f.p[i] - '0';
        if (d > 9) refuse(5, line);
        v = v * 10 + d;
    }
    return v;
}

/* split at commas outside quotes; answers the field count (0 for odd quotes) */
static int split(const u8 *p, const u8 *e, Fld *f, int max)
{
    int n = 0;
    const u8 *s = p;
    for (; p < e; p++) {
        if (*p == ',') {
            if (n == max) return max + 1;
            f[n].p = s; f[n].e = p; n++;
            s = p + 1;
        } else if (*p == '"') {
            do p++; while (p < e && *p != '"');      /* text is short: no call */
            if (p == e) return 0;
        }
    }
    if (n == max) return max + 1;
    f[n].p = s; f[n].e = e;
    return n + 1;
}

static int kind_of(const u8 *p, const u8 *e)
{
    if (e - p < 3 || p[2] != ',') return -1;
    switch (p[0] * 256 + p[1]) {
    case '1' * 256 + '1': return K11;
    case '1' * 256 + '2': return K12;
    case '2' * 256 + '1': return K21;
    case '2' * 256 + '3': return K23;
    case '2' * 256 + '4': return K24;
    }
    return -1;
}

/* next line [*p, *e) without CR LF; advances at */
static int next_line(Buf b, size_t *at, const u8 **p, const u8 **e, long line)
{
    if (*at == b.n) return 0;
    const u8 *s = b.p + *at;
    const u8 *nl = memchr(s, '\n', b.n - *at);
    if (!nl || nl == s || nl[-1] != '\r') refuse(1, line);
    *p = s; *e = nl - 1;
    *at = (size_t)(nl - b.p) + 1;
    return 1;
}

static void parse_body(const u8 *p, const u8 *e, long line, long order, Rec *r)
{
    Fld f[32];
    int k = kind_of(p, e);
    if (k < 0) refuse(2, line);
    if (split(p, e, f, 28) != kind_fields[k]) refuse(4, line);
    r->kind = k;
    if (f[1].e - f[1].p != 3) refuse(5, line);
    r->op = f[1].p[1];
    if (num(f[2], line) != order) refuse(7, line);
    r->content = f[3].p;
    r->content_len = (int)(e - f[3].p);
    switch (k) {
    case K11:
        r->key = num(f[3], line);
        break;
    case K12:
        r->key = num(f[3], line); r->k2 = num(f[4], line); r->k3 = num(f[5], line);
        break;
    case K21:
        r->key = num(f[3], line);
        r->ref = f[7].p == f[7].e ? 0 : num(f[7], line);
        break;
    case K23:
        r->key = packed(f[4], 'X', line); r->ref = num(f[3], line);
        break;
    case K24:
        r->key = packed(f[4], 'L', line); r->ref = num(f[3], line); r->ref2 = num(f[21], line);
        break;
    }
}

/* ---------------------------------------------------------------- database */

static const char SCHEMA[] =
    "CREATE TABLE street(usrn INTEGER PRIMARY KEY, content BLOB NOT NULL);"
    "CREATE TABLE sxref(usrn INTEGER NOT NULL REFERENCES street(usrn), xtype INTEGER NOT NULL,"
    "  xid INTEGER NOT NULL, content BLOB NOT NULL, PRIMARY KEY(usrn, xtype, xid)) WITHOUT ROWID;"
    "CREATE TABLE blpu(uprn INTEGER PRIMARY KEY, parent INTEGER REFERENCES blpu(uprn) CHECK(parent <> uprn),"
    "  content BLOB NOT NULL);"
    "CREATE TABLE axref(xkey INTEGER PRIMARY KEY, uprn INTEGER NOT NULL REFERENCES blpu(uprn),"
    "  content BLOB NOT NULL);"
    "CREATE TABLE lpi(lkey INTEGER PRIMARY KEY, uprn INTEGER NOT NULL REFERENCES blpu(uprn),"
    "  usrn INTEGER NOT NULL REFERENCES street(usrn), content BLOB NOT NULL);";
/* sxref.usrn is served by its primary key */
static const char INDEXES[] =
    "CREATE INDEX blpu_parent ON blpu(parent) WHERE parent IS NOT NULL;"
    "CREATE INDEX axref_uprn ON axref(uprn);"
    "CREATE INDEX lpi_uprn ON lpi(uprn);"
    "CREATE INDEX lpi_usrn ON lpi(usrn);";

static const char *SQL_I[NK] = {
    "INSERT INTO street VALUES(?1,?2)",
    "INSERT INTO sxref VALUES(?1,?2,?3,?4)",
    "INSERT INTO blpu VALUES(?1,?2,?3)",
    "INSERT INTO axref VALUES(?1,?2,?3)",
    "INSERT INTO lpi VALUES(?1,?2,?3,?4)",
};
static const char *SQL_U[NK] = {
    "UPDATE street SET content=?2 WHERE usrn=?1",
    "UPDATE sxref SET content=?4 WHERE usrn=?1 AND xtype=?2 AND xid=?3",
    "UPDATE blpu SET parent=?2, content=?3 WHERE uprn=?1",
    "UPDATE axref SET uprn=?2, content=?3 WHERE xkey=?1",
    "UPDATE lpi SET uprn=?2, usrn=?3, content=?4 WHERE lkey=?1",
};
/* tried first where a record can refer: references as before, so neither the indexes nor the
 * foreign keys are touched (SQLite decides that by the SET list, not by the values) */
static const char *SQL_F[NK] = {
    0, 0,
    "UPDATE blpu SET content=?3 WHERE uprn=?1 AND parent IS ?2",
    "UPDATE axref SET content=?3 WHERE xkey=?1 AND uprn=?2",
    "UPDATE lpi SET content=?4 WHERE lkey=?1 AND uprn=?2 AND usrn=?3",
};
static const char *SQL_D[NK] = {
    "DELETE FROM street WHERE usrn=?1",
    "DELETE FROM sxref WHERE usrn=?1 AND xtype=?2 AND xid=?3",
    "DELETE FROM blpu WHERE uprn=?1",
    "DELETE FROM axref WHERE xkey=?1",
    "DELETE FROM lpi WHERE lkey=?1",
};
static const char *SQL_S[NK] = {
    "SELECT content FROM street ORDER BY usrn",
    "SELECT content FROM sxref ORDER BY usrn, xtype, xid",
    "SELECT content FROM blpu ORDER BY uprn",
    "SELECT content FROM axref ORDER BY xkey",
    "SELECT content FROM lpi ORDER BY lkey",
};

static void run(sqlite3 *db, const char *sql)
{
    if (sqlite3_exec(db, sql, 0, 0, 0) != SQLITE_OK) sqldie(db, sql);
}

static sqlite3_stmt *prep(sqlite3 *db, const char *sql)
{
    sqlite3_stmt *s;
    if (sqlite3_prepare_v3(db, sql, -1, SQLITE_PREPARE_PERSISTENT, &s, 0) != SQLITE_OK) sqldie(db, sql);
    return s;
}

static void bind_key(sqlite3_stmt *s, const Rec *r)
{
    sqlite3_bind_int64(s, 1, r->key);
    if (r->kind == K12) {
        sqlite3_bind_int64(s, 2, r->k2);
        sqlite3_bind_int64(s, 3, r->k3);
    }
}

/* all columns from parameter c on; answers the next parameter */
static int bind_from(sqlite3_stmt *s, int c, const Rec *r)
{
    sqlite3_bind_int64(s, c++, r->key);
    switch (r->kind) {
    case K12:
        sqlite3_bind_int64(s, c++, r->k2);
        sqlite3_bind_int64(s, c++, r->k3);
        break;
    case K21:
        if (r->ref) sqlite3_bind_int64(s, c++, r->ref); else sqlite3_bind_null(s, c++);
        break;
    case K23:
        sqlite3_bind_int64(s, c++, r->ref);
        break;
    case K24:
        sqlite3_bind_int64(s, c++, r->ref);
        sqlite3_bind_int64(s, c++, r->ref2);
        break;
    }
    sqlite3_bind_blob(s, c++, r->content, r->content_len, SQLITE_STATIC);
    return c;
}

static void bind_all(sqlite3_stmt *s, const Rec *r) { bind_from(s, 1, r); }

/* the insert of n rows of kind k at once */
static sqlite3_stmt *prep_rows(sqlite3 *db, int k, int n)
{
    static const char *tab[NK] = { "street", "sxref", "blpu", "axref", "lpi" };
    static const char *row[NK] = { "(?,?)", "(?,?,?,?)", "(?,?,?)", "(?,?,?)", "(?,?,?,?)" };
    char sql[64 + 16 * BATCH];
    int at = sprintf(sql, "INSERT INTO %s VALUES", tab[k]);
    for (int i = 0; i < n; i++) at += sprintf(sql + at, "%s%s", i ? "," : "", row[k]);
    return prep(db, sql);
}

static int less(const Rec *a, const Rec *b)
{
    if (a->kind != b->kind) return a->kind < b->kind;
    if (a->key != b->key) return a->key < b->key;
    if (a->kind != K12) return 0;
    if (a->k2 != b->k2) return a->k2 < b->k2;
    return a->k3 < b->k3;
}

/* the running number of a line, kept as digits */
typedef struct { char dig[5]; int nd; } Running;
static const Running zero = { "0000", 1 };

/* the next line of a holding or of an undo, with its CR LF; answers where it ends */
static u8 *line_to(u8 *w, int kind, u8 op, Running *at, const void *content, int n)
{
    int i = 3;                        /* count up */
    while (at->dig[i] == '9') at->dig[i--] = '0';
    at->dig[i]++;
    if (4 - i > at->nd) at->nd = 4 - i;
    w[0] = (u8)('0' + kind_no[kind] / 10);
    w[1] = (u8)('0' + kind_no[kind] % 10);
    memcpy(w + 2, ",\"I\",", 5);
    w[4] = op;
    memcpy(w + 7, at->dig + 4 - at->nd, (size_t)at->nd);
    w += 7 + at->nd;
    *w++ = ',';
    memcpy(w, content, (size_t)n);
    w += n;
    *w++ = '\r';
    *w++ = '\n';
    return w;
}

/* the new holding into out; answers its length */
static size_t export_to(sqlite3_stmt **sel, u8 *out, size_t cap, sqlite3 *db)
{
    u8 *w = out;
    Running at = zero;
    for (int k = 0; k < NK; k++) {
        sqlite3_stmt *s = sel[k];
        int rc;
        while ((rc = sqlite3_step(s)) == SQLITE_ROW) {
            const void *c = sqlite3_column_blob(s, 0);
            int n = sqlite3_column_bytes(s, 0);
            if ((size_t)(w - out) + (size_t)n + 16 > cap) die("output too short");
            w = line_to(w, k, 'I', &at, c, n);
        }
        if (rc != SQLITE_DONE) sqldie(db, "export");
        sqlite3_reset(s);
    }
    return (size_t)(w - out);
}

/* ---------------------------------------------------------------- undo */

/* the step that takes a step back: an insert's content stands in the file, any other was replaced or removed */
typedef struct { int kind; u8 op; const u8 *content; int content_len; } Back;
static Back back[MAX_CHANGES];
static Buf replaced;            /* room for all that is replaced or removed, and how much of it there is */

/* content is every table's last column */
static void before_change(void *ctx, sqlite3 *db, int op, const char *schema, const char *table, sqlite3_int64 was, sqlite3_int64 is)
{
    sqlite3_value *v;
    (void)ctx; (void)schema; (void)table; (void)was; (void)is;
    if (op == SQLITE_INSERT) return;
    if (sqlite3_preupdate_old(db, sqlite3_preupdate_count(db) - 1, &v)) sqldie(db, "old content");
    const void *c = sqlite3_value_blob(v);
    int n = sqlite3_value_bytes(v);
    memcpy(replaced.p + replaced.n, c, (size_t)n);
    replaced.n += (size_t)n;
}

/* header, metadata and trailer as they stand, and between them the steps backwards; answers the length */
static size_t undo_to(Buf chg, size_t body_at, size_t body_end, long body, u8 *undo)
{
    u8 *w = undo;
    Running at = zero;
    memcpy(w, chg.p, body_at);
    w += body_at;
    while (body--) {
        const Back *b = &back[body];
        w = line_to(w, b->kind, b->op, &at, b->content, b->content_len);
    }
    memcpy(w, chg.p + body_end, chg.n - body_end);
    return (size_t)(w - undo) + chg.n - body_end;
}

/* ---------------------------------------------------------------- the job */

/* the new holding into out, the undo into undo, both lengths with them */
static void load_once(Buf hold, Buf chg, Buf *out, size_t cap, Buf *undo)
{
    sqlite3 *db;
    sqlite3_stmt *ins[NK], *upd[NK], *fast[NK], *del[NK], *sel[NK], *s;
    Rec r = { 0 }, prev = { 0 };
    const u8 *p, *e;
    size_t at, body_at, body_end;
    long n, line;

    /* ---- setup: open, pragmas, schema */
    if (sqlite3_open_v2(":memory:", &db, SQLITE_OPEN_READWRITE | SQLITE_OPEN_CREATE | SQLITE_OPEN_NOMUTEX, 0))
        sqldie(db, "open");
    run(db, "PRAGMA page_size=8192;PRAGMA journal_mode=off;PRAGMA synchronous=OFF;PRAGMA secure_delete=OFF;"
            "PRAGMA locking_mode=EXCLUSIVE;PRAGMA temp_store=MEMORY;PRAGMA foreign_keys=OFF;");
    run(db, "BEGIN");
    run(db, SCHEMA);

    /* ---- parse and load the holding: no foreign keys while bulk loading, indexes after, then one
     *      foreign_key_check over everything (a parent may stand behind its child) */
    {
        Rec batch[BATCH];
        int nb = 0, full = 0;               /* rows waiting; kind of the prepared full batch */
        s = 0;
        for (at = 0, n = 0;;) {
            int more = next_line(hold, &at, &p, &e, n + 1);
            if (more) {
                n++;
                if (n > MAX_RECORDS) refuse(14, n);
                parse_body(p, e, n, n, &r);
                if (r.op != 'I' || (n > 1 && !less(&prev, &r))) refuse(14, n);
                prev = r;
            }
            if (nb && (nb == BATCH || !more || r.kind != batch[0].kind)) {
                sqlite3_stmt *b;
                int c = 1;
                if (nb < BATCH) b = prep_rows(db, batch[0].kind, nb);
                else {
                    if (!s || full != batch[0].kind) {
                        sqlite3_finalize(s);
                        s = prep_rows(db, full = batch[0].kind, BATCH);
                    }
                    b = s;
                }
                for (int i = 0; i < nb; i++) c = bind_from(b, c, &batch[i]);
                if (sqlite3_step(b) != SQLITE_DONE) refuse(14, n);
                if (b == s) sqlite3_reset(b); else sqlite3_finalize(b);
                nb = 0;
            }
            if (!more) break;
            batch[nb++] = r;
        }
        sqlite3_finalize(s);
    }
    run(db, INDEXES);
    run(db, "COMMIT");
    s = prep(db, "PRAGMA foreign_key_check");
    if (sqlite3_step(s) != SQLITE_DONE) refuse(14, 0);
    sqlite3_finalize(s);
    run(db, "PRAGMA foreign_keys=ON");

    /* ---- parse the file and make its steps, one transaction under the hook */
    for (int k = 0; k < NK; k++) {
        ins[k] = prep(db, SQL_I[k]);
        upd[k] = prep(db, SQL_U[k]);
        fast[k] = SQL_F[k] ? prep(db, SQL_F[k]) : 0;
        del[k] = prep(db, SQL_D[k]);
        sel[k] = prep(db, SQL_S[k]);
    }
    sqlite3_preupdate_hook(db, before_change, 0);
    replaced.n = 0;
    run(db, "BEGIN");
    at = 0; line = 1;
    Fld f[16];
    if (!next_line(chg, &at, &p, &e, 1) || split(p, e, f, 9) != 9 || memcmp(p, "10,", 3)) refuse(3, 1);
    body_at = at;
    long body = 0;
    for (;;) {
        line++;
        body_end = at;
        if (!next_line(chg, &at, &p, &e, line)) refuse(3, line);
        if (e - p > 3 && p[0] == '2' && p[1] == '9') break;
        if (++body > MAX_CHANGES) refuse(9, line);
        parse_body(p, e, line, body, &r);
        int rc;
        size_t kept = replaced.n;
        switch (r.op) {
        case 'I':
            s = ins[r.kind];
            bind_all(s, &r);
            rc = sqlite3_step(s);
            n++;
            break;
        case 'U':
            if ((s = fast[r.kind])) {
                bind_all(s, &r);
                rc = sqlite3_step(s);
                if (rc == SQLITE_DONE && sqlite3_changes(db)) break;
                sqlite3_reset(s);
            }
            s = upd[r.kind];
            bind_all(s, &r);
            rc = sqlite3_step(s);
            if (rc == SQLITE_DONE && !sqlite3_changes(db)) refuse(11, line);
            break;
        case 'D':
            s = del[r.kind];
            bind_key(s, &r);
            rc = sqlite3_step(s);
            n--;
            if (rc == SQLITE_DONE && !sqlite3_changes(db)) refuse(11, line);
            break;
        default:
            refuse(5, line);
            return;
        }
        if (rc != SQLITE_DONE) {
            rc = sqlite3_extended_errcode(db);
            if (rc == SQLITE_CONSTRAINT_PRIMARYKEY || rc == SQLITE_CONSTRAINT_ROWID) refuse(10, line);
            if (rc == SQLITE_CONSTRAINT_FOREIGNKEY || rc == SQLITE_CONSTRAINT_CHECK) refuse(12, line);
            sqldie(db, "step");
        }
        sqlite3_reset(s);
        if (n > MAX_RECORDS) refuse(16, line);
        back[body - 1] = r.op == 'I' ? (Back){ r.kind, 'D', r.content, r.content_len }
                                     : (Back){ r.kind, r.op == 'U' ? 'U' : 'I', replaced.p + kept, (int)(replaced.n - kept) };
    }
    if (split(p, e, f, 15) != 15) refuse(4, line);
    line++;
    if (!next_line(chg, &at, &p, &e, line) || memcmp(p, "99,", 3)) refuse(3, line);
    if (split(p, e, f, 5) != 5) refuse(4, line);
    if (num(f[2], line) != body) refuse(8, line);
    if (at != chg.n) refuse(3, line + 1);
    run(db, "COMMIT");

    /* ---- the undo and the new holding */
    undo->n = undo_to(chg, body_at, body_end, body, undo->p);
    out->n = export_to(sel, out->p, cap, db);

    for (int k = 0; k < NK; k++) {
        sqlite3_finalize(ins[k]); sqlite3_finalize(upd[k]); sqlite3_finalize(fast[k]);
        sqlite3_finalize(del[k]); sqlite3_finalize(sel[k]);
    }
    if (sqlite3_close(db)) die("close");
}

static int cmp_d(const void *a, const void *b)
{
    double x = *(const double *)a, y = *(const double *)b;
    return x < y ? -1 : x > y;
}

int main(int argc, char **argv)
{
    if (argc < 3) die("sqlite OPERATION FOLDER [RUNS]");
    const char *operation = argv[1], *dir = argv[2];
    int none = !strcmp(operation, "none"), new = !strcmp(operation, "new"), runs = argc > 3 ? atoi(argv[3]) : 1;
    mallopt(M_MMAP_THRESHOLD, 1 << 28);          /* no mmap and munmap for each large buffer */
    mallopt(M_TRIM_THRESHOLD, 1 << 29);
    mallopt(M_TOP_PAD, 1 << 24);
    sqlite3_config(SQLITE_CONFIG_SINGLETHREAD);
    sqlite3_config(SQLITE_CONFIG_MEMSTATUS, 0);
    if (sqlite3_initialize()) die("initialize");
    Buf hold = slurp(dir, "holding.csv"), chg = slurp(dir, "change.csv");
    size_t cap = hold.n + chg.n + 16 * MAX_RECORDS;
    Buf out = room(cap), undo = room(hold.n + 2 * chg.n);
    replaced = room(hold.n + chg.n);
    double *times = calloc((size_t)runs, sizeof *times);
    for (int i = 0; i < runs && !none; i++) {
        double began = now_us();
        load_once(hold, chg, &out, cap, &undo);
        times[i] = now_us() - began;
    }
    if (new) {
        Buf again = room(cap), undo_again = room(out.n + 2 * undo.n);
        leave(dir, "new-sqlite.csv", out);
        leave(dir, "undo-sqlite.csv", undo);
        load_once(out, undo, &again, cap, &undo_again);
        if (again.n != hold.n || memcmp(again.p, hold.p, again.n)) die("the undo isn't one");
    }
    qsort(times, (size_t)runs, sizeof *times, cmp_d);
    if (argc > 3) printf("%.1f\n", times[runs / 2]);
    return 0;
}
