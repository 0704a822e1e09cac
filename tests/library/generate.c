/* Writes the small files of this folder with whatever release of the HDF5 library it is linked to.
 *
 *   generate version         prints the library's release
 *   generate list            one line a recipe: name, expected answers, purpose
 *   generate write FOLDER    writes FOLDER/NAME.h5 for every recipe
 *
 * Compile with -DH5_USE_110_API. Each recipe runs in a process of its own, so that no recipe sees another one's state and a
 * recipe may end its process before the file is closed. The clock that the library sees stands still: two runs with one
 * release give the same bytes. */
#include <signal.h>
#include <stdio.h>
#include <stdlib.h>
#include <string.h>
#include <sys/time.h>
#include <sys/types.h>
#include <sys/wait.h>
#include <time.h>
#include <unistd.h>

#include <hdf5.h>

/* the library's calls for the time of day come here */
enum { CLOCK = 1700000000 };

time_t time(time_t *t)
{
    if (t)
        *t = CLOCK;
    return CLOCK;
}

int gettimeofday(struct timeval *restrict tv, void *restrict zone)
{
    (void)zone;
    tv->tv_sec = CLOCK;
    tv->tv_usec = 0;
    return 0;
}

static const char *recipe_name;

static hid_t must(hid_t value, int line)
{
    if (value < 0) {
        fprintf(stderr, "recipe %s: a call failed in line %d\n", recipe_name, line);
        exit(1);
    }
    return value;
}
#define OK(call) must((call), __LINE__)

/* names that give a tree of level 8; groups and types that give 1,024 blocks */
enum { LEVEL_8 = 10, BLOCK_GROUPS = 248, BLOCK_TYPES = 1 };

/* ---- files ---- */

static hid_t access_list(H5F_libver_t low, H5F_libver_t high)
{
    hid_t fapl = OK(H5Pcreate(H5P_FILE_ACCESS));
    OK(H5Pset_libver_bounds(fapl, low, high));
    return fapl;
}

static hid_t earliest(void)
{
    return access_list(H5F_LIBVER_EARLIEST, H5F_LIBVER_LATEST);
}

/* K of the group trees, K of the symbol nodes, K of the chunk trees; 0 leaves the library's own (16, 4, 32) */
static hid_t create_k(const char *path, unsigned tree_k, unsigned leaf_k, unsigned chunk_k)
{
    hid_t fcpl = OK(H5Pcreate(H5P_FILE_CREATE));
    if (tree_k || leaf_k)
        OK(H5Pset_sym_k(fcpl, tree_k, leaf_k));
    if (chunk_k)
        OK(H5Pset_istore_k(fcpl, chunk_k));
    hid_t fapl = earliest();
    hid_t file = OK(H5Fcreate(path, H5F_ACC_TRUNC, fcpl, fapl));
    OK(H5Pclose(fapl));
    OK(H5Pclose(fcpl));
    return file;
}

static hid_t create(const char *path)
{
    return create_k(path, 0, 0, 0);
}

static hid_t reopen_with(const char *path, hid_t fapl)
{
    hid_t file = OK(H5Fopen(path, H5F_ACC_RDWR, fapl));
    OK(H5Pclose(fapl));
    return file;
}

static hid_t reopen(const char *path)
{
    return reopen_with(path, earliest());
}

static void done(hid_t file)
{
    OK(H5Fclose(file));
}

/* ---- objects ---- */

static hid_t untimed(hid_t class)
{
    hid_t list = OK(H5Pcreate(class));
    OK(H5Pset_obj_track_times(list, 0));
    return list;
}

static void group(hid_t at, const char *name)
{
    OK(H5Gclose(OK(H5Gcreate2(at, name, H5P_DEFAULT, H5P_DEFAULT, H5P_DEFAULT))));
}

/* a group whose heap starts with room for `names` bytes of names only */
static void tight_group(hid_t at, const char *name, size_t names)
{
    hid_t gcpl = OK(H5Pcreate(H5P_GROUP_CREATE));
    OK(H5Pset_local_heap_size_hint(gcpl, names));
    OK(H5Gclose(OK(H5Gcreate2(at, name, H5P_DEFAULT, gcpl, H5P_DEFAULT))));
    OK(H5Pclose(gcpl));
}

static void hard(hid_t at, const char *old, const char *new)
{
    OK(H5Lcreate_hard(at, old, at, new, H5P_DEFAULT, H5P_DEFAULT));
}

static void soft(hid_t at, const char *value, const char *name)
{
    OK(H5Lcreate_soft(value, at, name, H5P_DEFAULT, H5P_DEFAULT));
}

static void drop(hid_t at, const char *name)
{
    OK(H5Ldelete(at, name, H5P_DEFAULT));
}

static void fill(unsigned char *data, size_t n, unsigned seed)
{
    for (size_t i = 0; i < n; i++)
        data[i] = (unsigned char)(seed + 7 * i + (i >> 8));
}

/* writes every byte of a dataset, in its own datatype */
static void write_all(hid_t set, unsigned seed)
{
    hid_t type = OK(H5Dget_type(set));
    hid_t space = OK(H5Dget_space(set));
    size_t n = (size_t)H5Sget_simple_extent_npoints(space) * H5Tget_size(type);
    unsigned char *data = malloc(n + 1);
    fill(data, n, seed);
    OK(H5Dwrite(set, type, H5S_ALL, H5S_ALL, H5P_DEFAULT, data));
    free(data);
    OK(H5Sclose(space));
    OK(H5Tclose(type));
}

enum { UNWRITTEN = 0x10000 };

/* a dataset of the given shape with its bytes from a seed, or nothing written */
static void dataset_with(hid_t at, const char *name, hid_t type, int rank, const hsize_t *dims, hid_t dcpl, unsigned seed)
{
    hid_t space = rank ? OK(H5Screate_simple(rank, dims, NULL)) : OK(H5Screate(H5S_SCALAR));
    OK(H5Pset_obj_track_times(dcpl, 0));
    hid_t set = OK(H5Dcreate2(at, name, type, space, H5P_DEFAULT, dcpl, H5P_DEFAULT));
    if (seed != UNWRITTEN)
        write_all(set, seed);
    OK(H5Dclose(set));
    OK(H5Sclose(space));
}

static void dataset_layout(hid_t at, const char *name, hid_t type, int rank, const hsize_t *dims, H5D_layout_t layout, unsigned seed)
{
    hid_t dcpl = OK(H5Pcreate(H5P_DATASET_CREATE));
    OK(H5Pset_layout(dcpl, layout));
    dataset_with(at, name, type, rank, dims, dcpl, seed);
    OK(H5Pclose(dcpl));
}

/* one row of n elements, contiguous */
static void row(hid_t at, const char *name, hid_t type, hsize_t n)
{
    dataset_layout(at, name, type, 1, &n, H5D_CONTIGUOUS, (unsigned)n);
}

static void commit(hid_t at, const char *name, hid_t type)
{
    hid_t copy = OK(H5Tcopy(type));
    hid_t tcpl = untimed(H5P_DATATYPE_CREATE);
    OK(H5Tcommit2(at, name, copy, H5P_DEFAULT, tcpl, H5P_DEFAULT));
    OK(H5Pclose(tcpl));
    OK(H5Tclose(copy));
}

static void attribute_with(hid_t at, const char *object, const char *name, hid_t type, hsize_t n, hid_t acpl)
{
    hid_t space = OK(H5Screate_simple(1, &n, NULL));
    hid_t holder = OK(H5Oopen(at, object, H5P_DEFAULT));
    hid_t attr = OK(H5Acreate2(holder, name, type, space, acpl, H5P_DEFAULT));
    size_t bytes = (size_t)n * H5Tget_size(type);
    unsigned char *data = malloc(bytes + 1);
    fill(data, bytes, 3);
    OK(H5Awrite(attr, type, data));
    free(data);
    OK(H5Aclose(attr));
    OK(H5Oclose(holder));
    OK(H5Sclose(space));
}

static void attribute_of(hid_t at, const char *object, const char *name, hid_t type, hsize_t n)
{
    attribute_with(at, object, name, type, n, H5P_DEFAULT);
}

static void attribute(hid_t at, const char *object, const char *name, hsize_t n)
{
    attribute_of(at, object, name, H5T_STD_I32LE, n);
}

static void attribute_gone(hid_t at, const char *object, const char *name)
{
    OK(H5Adelete_by_name(at, object, name, H5P_DEFAULT));
}

/* ---- recipes: groups and links ---- */

static void empty(const char *path)
{
    done(create(path));
}

static void superblock_1_empty(const char *path)
{
    done(create_k(path, 0, 0, 16));
}

static void superblock_1(const char *path)
{
    hid_t f = create_k(path, 0, 0, 31);
    group(f, "g");
    row(f, "g/d", H5T_STD_U16BE, 5);
    hard(f, "g/d", "e");
    hard(f, "/", "g/up");
    soft(f, "/g/d", "s");
    done(f);
}

static void superblock_1_k(const char *path)
{
    hid_t f = create_k(path, 2, 3, 1);
    char name[16];
    row(f, "d", H5T_STD_U8LE, 1);
    for (int i = 0; i < 40; i++) {
        sprintf(name, "n%02d", 37 * i % 40);
        hard(f, "d", name);
    }
    done(f);
}

static void two_names(const char *path)
{
    hid_t f = create(path);
    row(f, "a", H5T_STD_U8LE, 4);
    hard(f, "a", "b");
    done(f);
}

static void three_names(const char *path)
{
    hid_t f = create(path);
    row(f, "a", H5T_STD_I32LE, 3);
    group(f, "g");
    group(f, "g/h");
    hard(f, "a", "g/a");
    hard(f, "a", "g/h/last");
    done(f);
}

static void loop_root(const char *path)
{
    hid_t f = create(path);
    hard(f, "/", "loop");
    group(f, "g");
    hard(f, "/", "g/up");
    done(f);
}

static void loop_ancestor(const char *path)
{
    hid_t f = create(path);
    group(f, "a");
    group(f, "a/b");
    group(f, "a/b/c");
    hard(f, "a", "a/b/c/back");
    hard(f, "a/b/c", "a/b/c/self");
    hard(f, "a/b", "a/peer");
    done(f);
}

static void group_two_names(const char *path)
{
    hid_t f = create(path);
    group(f, "g");
    row(f, "g/d", H5T_STD_U8LE, 9);
    hard(f, "g", "h");
    hard(f, "h/d", "g/e");
    done(f);
}

static void soft_links(const char *path)
{
    char value[1001];
    memset(value, 'v', 1000);
    value[1000] = 0;
    hid_t f = create(path);
    group(f, "g");
    row(f, "g/d", H5T_STD_U8LE, 2);
    soft(f, "/g/d", "absolute");
    soft(f, "g/d", "relative");
    soft(f, "d", "g/beside");
    soft(f, "/no/such/thing", "dangling");
    soft(f, "itself", "itself");
    soft(f, ".", "dot");
    soft(f, "/", "root");
    soft(f, value, "long");
    done(f);
}

static void nested(const char *path)
{
    char name[64] = "";
    hid_t f = create_k(path, 2, 2, 0);
    for (int i = 0; i < 12; i++) {
        strcat(name, i ? "/g" : "g");
        group(f, name);
    }
    strcat(name, "/d");
    row(f, name, H5T_IEEE_F64LE, 1);
    hard(f, name, "d");
    done(f);
}

/* no space reserved in advance, so no gaps */
static void packed(const char *path)
{
    hid_t fapl = earliest();
    OK(H5Pset_meta_block_size(fapl, 0));
    OK(H5Pset_small_data_block_size(fapl, 0));
    hid_t f = OK(H5Fcreate(path, H5F_ACC_TRUNC, H5P_DEFAULT, fapl));
    OK(H5Pclose(fapl));
    group(f, "g");
    row(f, "g/d", H5T_STD_U8LE, 5);
    row(f, "g/e", H5T_STD_I64LE, 5);
    hard(f, "g/e", "e");
    done(f);
}

static void aligned(const char *path)
{
    hid_t fapl = earliest();
    OK(H5Pset_alignment(fapl, 1, 256));
    hid_t f = OK(H5Fcreate(path, H5F_ACC_TRUNC, H5P_DEFAULT, fapl));
    OK(H5Pclose(fapl));
    group(f, "g");
    row(f, "g/d", H5T_STD_U8LE, 5);
    row(f, "g/e", H5T_STD_I64LE, 5);
    hard(f, "g/e", "e");
    done(f);
}

/* kept in memory and written at the end, in pieces of 4,096 bytes */
static void core_driver(const char *path)
{
    hid_t fapl = earliest();
    OK(H5Pset_fapl_core(fapl, 4096, 1));
    hid_t f = OK(H5Fcreate(path, H5F_ACC_TRUNC, H5P_DEFAULT, fapl));
    OK(H5Pclose(fapl));
    group(f, "g");
    row(f, "g/d", H5T_STD_U8LE, 5);
    hard(f, "g/d", "d");
    OK(H5Fflush(f, H5F_SCOPE_GLOBAL));
    done(f);
}

static void names_many(const char *path, unsigned tree_k, unsigned leaf_k, int count, int step)
{
    hid_t f = create_k(path, tree_k, leaf_k, 0);
    char name[16];
    row(f, "d", H5T_STD_U8LE, 1);
    for (int i = 0; i < count; i++) {
        sprintf(name, "n%03d", step * i % count);
        hard(f, "d", name);
    }
    done(f);
}

static void tree_default(const char *path)
{
    names_many(path, 0, 0, 60, 1);
}

static void tree_rising(const char *path)
{
    names_many(path, 2, 1, 40, 1);
}

static void tree_falling(const char *path)
{
    names_many(path, 2, 1, 40, 39);
}

static void tree_mixed(const char *path)
{
    names_many(path, 2, 2, 100, 37);
}

static void tree_300(const char *path)
{
    names_many(path, 3, 4, 300, 121);
}

static void tree_wide_nodes(const char *path)
{
    names_many(path, 100, 60, 130, 7);
}

/* with K 1 a node is split at its third entry, and names that rise make the tree one level higher every other time */
static void tree_k1(const char *path)
{
    names_many(path, 1, 1, 6, 1);
}

static void tree_level_8(const char *path)
{
    names_many(path, 1, 1, LEVEL_8, 1);
}

static void tree_level_9(const char *path)
{
    names_many(path, 1, 1, LEVEL_8 + 1, 1);
}

static void names_odd(const char *path)
{
    static const char *names[] = {"..",  "...", "a b",  "a\nb", "\x01",     "\xff",  "caf\xc3\xa9", "\xe6\x97\xa5\xe6\x9c\xac",
                                  "a",   "A",   "aa",   "a.",   "%41",      "\\",    "#",           "\x7f\x80",
                                  "abc", "abd", "ab\t", "0",    "00000000", "-name", "seven77",     "eight888"};
    hid_t f = create_k(path, 4, 2, 0);
    commit(f, "type", H5T_STD_I8LE);
    for (size_t i = 0; i < sizeof names / sizeof *names; i++)
        hard(f, "type", names[i]);
    done(f);
}

static void name_long(const char *path, size_t n)
{
    char name[300];
    memset(name, 'x', n);
    name[n] = 0;
    hid_t f = create(path);
    group(f, "g");
    hard(f, "g", name);
    name[0] = 'w';
    soft(f, name, name);
    name[0] = 'a';
    row(f, name, H5T_STD_U8LE, 1);
    done(f);
}

static void name_255(const char *path)
{
    name_long(path, 255);
}

static void name_256(const char *path)
{
    name_long(path, 256);
}

/* ---- recipes: deletions ---- */

static void deletions(const char *path)
{
    hid_t f = create(path);
    char name[40];
    row(f, "d", H5T_STD_U8LE, 1);
    for (int i = 0; i < 24; i++) {
        sprintf(name, "%.*s%02d", i % 9, "abcdefghij", i);
        hard(f, "d", name);
    }
    for (int i = 0; i < 24; i += 3) {
        sprintf(name, "%.*s%02d", i % 9, "abcdefghij", i);
        drop(f, name);
    }
    done(f);
}

static void deletions_openings(const char *path)
{
    char name[80];
    hid_t f = create_k(path, 2, 2, 0);
    group(f, "g");
    row(f, "d", H5T_STD_U8LE, 1);
    done(f);
    for (int round = 0; round < 6; round++) {
        f = reopen(path);
        for (int i = 0; i < 10; i++) {
            sprintf(name, "g/%.*s%d_%d", 3 * i + round, "abcdefghijklmnopqrstuvwxyzabcdefghijklmnopqrstuvwxyz", round, i);
            hard(f, "d", name);
        }
        done(f);
        f = reopen(path);
        for (int i = round % 2; i < 10; i += 2) {
            sprintf(name, "g/%.*s%d_%d", 3 * i + round, "abcdefghijklmnopqrstuvwxyzabcdefghijklmnopqrstuvwxyz", round, i);
            drop(f, name);
        }
        done(f);
    }
}

static void deletions_all(const char *path)
{
    char name[16];
    hid_t f = create_k(path, 1, 1, 0);
    group(f, "g");
    row(f, "d", H5T_STD_U8LE, 1);
    for (int i = 0; i < 12; i++) {
        sprintf(name, "g/n%02d", 5 * i % 12);
        hard(f, "d", name);
    }
    for (int i = 0; i < 12; i++) {
        sprintf(name, "g/n%02d", 7 * i % 12);
        drop(f, name);
    }
    done(f);
}

/* the first, the last and inner names of a tree of several levels go */
static void deletions_tree(const char *path)
{
    char name[16];
    hid_t f = create_k(path, 2, 1, 0);
    row(f, "d", H5T_STD_U8LE, 1);
    for (int i = 0; i < 60; i++) {
        sprintf(name, "n%02d", 23 * i % 60);
        hard(f, "d", name);
    }
    for (int i = 0; i < 60; i++)
        if (i < 7 || i > 52 || (i > 20 && i < 33) || i % 5 == 2) {
            sprintf(name, "n%02d", i);
            drop(f, name);
        }
    done(f);
}

static void deletions_objects(const char *path)
{
    char name[16];
    hid_t f = create(path);
    for (int i = 0; i < 10; i++) {
        sprintf(name, "o%d", i);
        if (i % 3 == 0)
            group(f, name);
        else if (i % 3 == 1)
            row(f, name, H5T_STD_I64BE, (hsize_t)i);
        else
            commit(f, name, H5T_IEEE_F32BE);
    }
    hard(f, "o3", "third");
    hard(f, "o4", "o3/fourth");
    hard(f, "o5", "o3/fifth");
    for (int i = 0; i < 10; i += 1 + i % 2) {
        sprintf(name, "o%d", i);
        drop(f, name);
    }
    row(f, "new", H5T_STD_I64BE, 6);
    group(f, "other");
    done(f);
}

static void heap_growth(const char *path)
{
    char name[256];
    hid_t f = create(path);
    row(f, "d", H5T_STD_U8LE, 1);
    for (int i = 0; i < 30; i++) {
        memset(name, 'a' + i % 26, sizeof name);
        name[1 + 8 * i] = 0;
        hard(f, "d", name);
        if (i % 4 == 3) {
            memset(name, 'a' + (i - 2) % 26, sizeof name);
            name[1 + 8 * (i - 2)] = 0;
            drop(f, name);
        }
    }
    done(f);
}

static void moved(const char *path)
{
    hid_t f = create(path);
    group(f, "g");
    group(f, "h");
    row(f, "g/d", H5T_STD_U8LE, 3);
    OK(H5Lmove(f, "g/d", f, "h/renamed to something longer", H5P_DEFAULT, H5P_DEFAULT));
    OK(H5Lmove(f, "g", f, "h/g", H5P_DEFAULT, H5P_DEFAULT));
    hard(f, "h/renamed to something longer", "d");
    OK(H5Ocopy(f, "h", f, "copy", H5P_DEFAULT, H5P_DEFAULT));
    hid_t anonymous = OK(H5Gcreate_anon(f, H5P_DEFAULT, H5P_DEFAULT));
    OK(H5Olink(anonymous, f, "late", H5P_DEFAULT, H5P_DEFAULT));
    OK(H5Gclose(anonymous));
    done(f);
}

/* ---- recipes: attributes ---- */

static void attributes(const char *path)
{
    char name[16];
    hid_t f = create(path);
    group(f, "g");
    row(f, "d", H5T_STD_U8LE, 1);
    commit(f, "t", H5T_STD_U8LE);
    for (int i = 0; i < 6; i++) {
        sprintf(name, "attribute%d", i);
        attribute(f, "/", name, 1);
        attribute(f, "g", name, 2);
        attribute(f, "d", name, (hsize_t)i + 1);
        attribute(f, "t", name, 20);
    }
    done(f);
}

static void attributes_openings(const char *path)
{
    static const char *holders[] = {"/", "g", "d", "t"};
    char name[16];
    hid_t f = create(path);
    group(f, "g");
    row(f, "d", H5T_IEEE_F64BE, 2);
    commit(f, "t", H5T_STD_U8LE);
    hard(f, "d", "g/d");
    done(f);
    for (int round = 0; round < 7; round++) {
        f = reopen(path);
        for (int i = 0; i < 4; i++) {
            sprintf(name, "a%d", round);
            attribute(f, holders[(i + round) % 4], name, (hsize_t)(1 + 5 * round % 11));
        }
        done(f);
    }
}

static void attributes_deleted(const char *path)
{
    char name[16];
    hid_t f = create(path);
    group(f, "g");
    row(f, "d", H5T_STD_U8LE, 1);
    done(f);
    for (int round = 0; round < 4; round++) {
        f = reopen(path);
        for (int i = 0; i < 5; i++) {
            sprintf(name, "a%d_%d", round, i);
            attribute(f, "d", name, (hsize_t)(1 + (3 * i + round) % 7));
            attribute(f, "g", name, (hsize_t)(1 + (2 * i + round) % 5));
        }
        done(f);
        f = reopen(path);
        for (int i = round % 2; i < 5; i += 2) {
            sprintf(name, "a%d_%d", round, i);
            attribute_gone(f, "d", name);
            attribute_gone(f, "g", name);
        }
        done(f);
    }
}

static void attribute_large(const char *path)
{
    hid_t f = create(path);
    row(f, "d", H5T_STD_U8LE, 1);
    attribute(f, "d", "large", 2000);
    attribute(f, "d", "small", 1);
    attribute(f, "/", "large", 1000);
    done(f);
}

/* attributes of their own types, whatever these are */
static void attribute_types(const char *path)
{
    const hsize_t three = 3;
    const char *word = "word";
    hvl_t list = {3, "abc"};
    hobj_ref_t reference;
    hid_t f = create(path);
    row(f, "d", H5T_STD_U8LE, 1);
    hid_t set = OK(H5Oopen(f, "d", H5P_DEFAULT));
    hid_t space = OK(H5Screate(H5S_SCALAR));
    hid_t types[4];
    const void *values[4] = {&word, &list, &reference, "123456789abc"};
    OK(H5Rcreate(&reference, f, "d", H5R_OBJECT, -1));
    types[0] = OK(H5Tcopy(H5T_C_S1));
    OK(H5Tset_size(types[0], H5T_VARIABLE));
    types[1] = OK(H5Tvlen_create(H5T_STD_U8LE));
    types[2] = OK(H5Tcopy(H5T_STD_REF_OBJ));
    types[3] = OK(H5Tarray_create2(H5T_STD_I32LE, 1, &three));
    for (int i = 0; i < 4; i++) {
        char name[] = {'a', (char)('0' + i), 0};
        hid_t attr = OK(H5Acreate2(set, name, types[i], space, H5P_DEFAULT, H5P_DEFAULT));
        OK(H5Awrite(attr, types[i], values[i]));
        OK(H5Aclose(attr));
        OK(H5Tclose(types[i]));
    }
    OK(H5Sclose(space));
    OK(H5Oclose(set));
    done(f);
}

/* ---- recipes: datatypes ---- */

static void type_row(hid_t at, const char *name, hid_t type)
{
    row(at, name, type, 3);
}

static void fixed_types(const char *path)
{
    hid_t f = create(path);
    type_row(f, "i8le", H5T_STD_I8LE);
    type_row(f, "i16be", H5T_STD_I16BE);
    type_row(f, "i32le", H5T_STD_I32LE);
    type_row(f, "i64be", H5T_STD_I64BE);
    type_row(f, "u8be", H5T_STD_U8BE);
    type_row(f, "u16le", H5T_STD_U16LE);
    type_row(f, "u32be", H5T_STD_U32BE);
    type_row(f, "u64le", H5T_STD_U64LE);
    hid_t t = OK(H5Tcopy(H5T_STD_U16BE));
    OK(H5Tset_precision(t, 11));
    OK(H5Tset_offset(t, 5));
    type_row(f, "u16be_11_at_5", t);
    OK(H5Tclose(t));
    t = OK(H5Tcopy(H5T_STD_U64LE));
    OK(H5Tset_size(t, 11));
    type_row(f, "u64_in_88", t);
    OK(H5Tclose(t));
    done(f);
}

/* from 1.14.4 on the library must be told to let such a type pass */
static void fixed_unusual(const char *path)
{
    hid_t fapl = earliest();
#if H5_VERSION_GE(1, 14, 4)
    OK(H5Pset_relax_file_integrity_checks(fapl, H5F_RFIC_UNUSUAL_NUM_UNUSED_NUMERIC_BITS));
#endif
    hid_t f = OK(H5Fcreate(path, H5F_ACC_TRUNC, H5P_DEFAULT, fapl));
    OK(H5Pclose(fapl));
    hid_t t = OK(H5Tcopy(H5T_STD_I32LE));
    OK(H5Tset_precision(t, 1));
    OK(H5Tset_pad(t, H5T_PAD_ONE, H5T_PAD_BACKGROUND));
    type_row(f, "one_bit", t);
    OK(H5Tclose(t));
    done(f);
}

static void float_types(const char *path)
{
    hid_t f = create(path);
    type_row(f, "f32le", H5T_IEEE_F32LE);
    type_row(f, "f32be", H5T_IEEE_F32BE);
    type_row(f, "f64le", H5T_IEEE_F64LE);
    type_row(f, "f64be", H5T_IEEE_F64BE);
    type_row(f, "longdouble", H5T_NATIVE_LDOUBLE);
    hid_t t = OK(H5Tcopy(H5T_IEEE_F32LE));
    OK(H5Tset_fields(t, 15, 10, 5, 0, 10));
    OK(H5Tset_precision(t, 16));
    OK(H5Tset_ebias(t, 15));
    OK(H5Tset_size(t, 2));
    type_row(f, "f16le", t);
    OK(H5Tset_order(t, H5T_ORDER_BE));
    type_row(f, "f16be", t);
    OK(H5Tset_size(t, 3));
    OK(H5Tset_offset(t, 8));
    type_row(f, "f16_in_24", t);
    OK(H5Tclose(t));
    done(f);
}

static void float_vax(const char *path)
{
    hid_t f = create(path);
    type_row(f, "vax32", H5T_VAX_F32);
    type_row(f, "vax64", H5T_VAX_F64);
    done(f);
}

static void string_types(const char *path)
{
    static const H5T_str_t pads[] = {H5T_STR_NULLTERM, H5T_STR_NULLPAD, H5T_STR_SPACEPAD};
    static const size_t sizes[] = {1, 7, 100};
    char name[16];
    hid_t f = create(path);
    for (int i = 0; i < 3; i++)
        for (int utf = 0; utf < 2; utf++) {
            hid_t t = OK(H5Tcopy(H5T_C_S1));
            OK(H5Tset_size(t, sizes[i]));
            OK(H5Tset_strpad(t, pads[(i + utf) % 3]));
            OK(H5Tset_cset(t, utf ? H5T_CSET_UTF8 : H5T_CSET_ASCII));
            sprintf(name, "s%d_%d", (int)sizes[i], utf);
            type_row(f, name, t);
            OK(H5Tclose(t));
        }
    type_row(f, "fortran", H5T_FORTRAN_S1);
    done(f);
}

static void bitfield_types(const char *path)
{
    hid_t f = create(path);
    type_row(f, "b8le", H5T_STD_B8LE);
    type_row(f, "b16be", H5T_STD_B16BE);
    type_row(f, "b32le", H5T_STD_B32LE);
    type_row(f, "b64be", H5T_STD_B64BE);
    hid_t t = OK(H5Tcopy(H5T_STD_B32BE));
    OK(H5Tset_precision(t, 7));
    OK(H5Tset_offset(t, 25));
    type_row(f, "b32be_7_at_25", t);
    OK(H5Tclose(t));
    done(f);
}

static void opaque_types(const char *path)
{
    static const size_t sizes[] = {1, 5, 300};
    static const char *tags[] = {"", "seven77", "a tag that is longer than any eight bytes"};
    char name[16];
    hid_t f = create(path);
    for (int i = 0; i < 3; i++) {
        hid_t t = OK(H5Tcreate(H5T_OPAQUE, sizes[i]));
        OK(H5Tset_tag(t, tags[i]));
        sprintf(name, "o%d", (int)sizes[i]);
        type_row(f, name, t);
        OK(H5Tclose(t));
    }
    done(f);
}

/* ---- recipes: dataspaces, layouts ---- */

static void compact(const char *path)
{
    const hsize_t one = 1, two[2] = {3, 5}, many = 1000, none = 0;
    hid_t f = create(path);
    dataset_layout(f, "one", H5T_STD_U8LE, 1, &one, H5D_COMPACT, 1);
    dataset_layout(f, "two", H5T_STD_I32BE, 2, two, H5D_COMPACT, 2);
    dataset_layout(f, "many", H5T_STD_U16LE, 1, &many, H5D_COMPACT, 3);
    dataset_layout(f, "none", H5T_STD_U16LE, 1, &none, H5D_COMPACT, UNWRITTEN);
    dataset_layout(f, "scalar", H5T_IEEE_F64LE, 0, NULL, H5D_COMPACT, 4);
    dataset_layout(f, "unwritten", H5T_IEEE_F64LE, 1, &one, H5D_COMPACT, UNWRITTEN);
    hard(f, "two", "again");
    done(f);
}

static void contiguous(const char *path)
{
    static const H5D_alloc_time_t times[] = {H5D_ALLOC_TIME_EARLY, H5D_ALLOC_TIME_LATE, H5D_ALLOC_TIME_INCR};
    const hsize_t dims[3] = {2, 3, 4};
    char name[16];
    hid_t f = create(path);
    for (int i = 0; i < 3; i++)
        for (int written = 0; written < 2; written++) {
            hid_t dcpl = OK(H5Pcreate(H5P_DATASET_CREATE));
            OK(H5Pset_alloc_time(dcpl, times[i]));
            OK(H5Pset_layout(dcpl, H5D_CONTIGUOUS));
            sprintf(name, "d%d%s", i, written ? "w" : "");
            /* the library refuses incremental allocation of contiguous data */
            if (times[i] != H5D_ALLOC_TIME_INCR)
                dataset_with(f, name, H5T_STD_I32LE, 3, dims, dcpl, written ? 5 : UNWRITTEN);
            OK(H5Pclose(dcpl));
        }
    done(f);
}

static void zero_sized(const char *path)
{
    const hsize_t none = 0, inner[3] = {3, 0, 2}, zeros[2] = {0, 0};
    hid_t f = create(path);
    dataset_layout(f, "none", H5T_STD_U8LE, 1, &none, H5D_CONTIGUOUS, UNWRITTEN);
    dataset_layout(f, "none_written", H5T_STD_U8LE, 1, &none, H5D_CONTIGUOUS, 1);
    dataset_layout(f, "inner", H5T_STD_U64LE, 3, inner, H5D_CONTIGUOUS, 1);
    dataset_layout(f, "zeros", H5T_IEEE_F32BE, 2, zeros, H5D_CONTIGUOUS, UNWRITTEN);
    done(f);
}

static void scalar(const char *path)
{
    hid_t f = create(path);
    dataset_layout(f, "written", H5T_STD_I16BE, 0, NULL, H5D_CONTIGUOUS, 9);
    dataset_layout(f, "unwritten", H5T_STD_I16BE, 0, NULL, H5D_CONTIGUOUS, UNWRITTEN);
    hid_t t = OK(H5Tcopy(H5T_C_S1));
    OK(H5Tset_size(t, 40));
    dataset_layout(f, "string", t, 0, NULL, H5D_CONTIGUOUS, 9);
    OK(H5Tclose(t));
    done(f);
}

static void rank_32(const char *path)
{
    hsize_t dims[32];
    for (int i = 0; i < 32; i++)
        dims[i] = i % 11 == 5 ? 2 : 1;
    hid_t f = create(path);
    dataset_layout(f, "d", H5T_STD_U8LE, 32, dims, H5D_CONTIGUOUS, 1);
    dataset_layout(f, "c", H5T_STD_U8LE, 31, dims, H5D_COMPACT, 1);
    done(f);
}

/* maxima are always stored; contiguous and compact data can't have any above the sizes */
static void huge_unwritten(const char *path)
{
    const hsize_t dims[2] = {(hsize_t)1 << 31, (hsize_t)1 << 28}, row1 = ((hsize_t)1 << 60) - 1, none[2] = {0, (hsize_t)1 << 62};
    hid_t f = create(path);
    dataset_layout(f, "two", H5T_STD_U8LE, 2, dims, H5D_CONTIGUOUS, UNWRITTEN);
    dataset_layout(f, "one", H5T_STD_U8LE, 1, &row1, H5D_CONTIGUOUS, UNWRITTEN);
    dataset_layout(f, "none", H5T_STD_U64LE, 2, none, H5D_CONTIGUOUS, UNWRITTEN);
    done(f);
}

static void fill_values(const char *path)
{
    static const H5D_fill_time_t times[] = {H5D_FILL_TIME_ALLOC, H5D_FILL_TIME_NEVER, H5D_FILL_TIME_IFSET};
    const hsize_t dims = 4;
    const int value = 77;
    char name[16];
    hid_t f = create(path);
    for (int i = 0; i < 3; i++)
        for (int set = 0; set < 3; set++) {
            hid_t dcpl = OK(H5Pcreate(H5P_DATASET_CREATE));
            if (set < 2)
                OK(H5Pset_fill_value(dcpl, H5T_NATIVE_INT, set ? &value : NULL));
            OK(H5Pset_fill_time(dcpl, times[i]));
            OK(H5Pset_alloc_time(dcpl, H5D_ALLOC_TIME_EARLY));
            sprintf(name, "f%d_%d", i, set);
            /* the library refuses to fill at allocation with a fill value that isn't defined */
            if (set || times[i] != H5D_FILL_TIME_ALLOC)
                dataset_with(f, name, H5T_STD_I32BE, 1, &dims, dcpl, 5);
            OK(H5Pclose(dcpl));
        }
    done(f);
}

/* ---- recipes: committed datatypes, comments, times, counts ---- */

static void committed_unused(const char *path)
{
    hid_t f = create(path);
    commit(f, "int", H5T_STD_I32LE);
    commit(f, "float", H5T_IEEE_F64BE);
    hid_t t = OK(H5Tcreate(H5T_COMPOUND, 12));
    OK(H5Tinsert(t, "x", 0, H5T_STD_I32LE));
    OK(H5Tinsert(t, "y", 4, H5T_IEEE_F64LE));
    commit(f, "record", t);
    OK(H5Tclose(t));
    t = OK(H5Tvlen_create(H5T_STD_U8LE));
    commit(f, "vlen", t);
    OK(H5Tclose(t));
    done(f);
}

static void committed_twice(const char *path)
{
    hid_t f = create(path);
    commit(f, "t", H5T_STD_I32LE);
    group(f, "g");
    hard(f, "t", "g/t");
    done(f);
}

static void with_committed(hid_t f, const char *name, const char *type, int count)
{
    char full[40];
    const hsize_t n = 2;
    hid_t t = OK(H5Topen2(f, type, H5P_DEFAULT));
    for (int i = 0; i < count; i++) {
        sprintf(full, "%s%d", name, i);
        dataset_layout(f, full, t, 1, &n, i % 2 ? H5D_COMPACT : H5D_CONTIGUOUS, 8);
    }
    OK(H5Tclose(t));
}

static void committed_shared(const char *path)
{
    hid_t f = create(path);
    commit(f, "t", H5T_STD_I32LE);
    group(f, "g");
    hard(f, "t", "g/t");
    with_committed(f, "d", "t", 3);
    done(f);
}

static void committed_attributes(const char *path)
{
    hid_t f = create(path);
    commit(f, "t", H5T_STD_I16LE);
    group(f, "g");
    row(f, "d", H5T_STD_U8LE, 1);
    hid_t t = OK(H5Topen2(f, "t", H5P_DEFAULT));
    attribute_of(f, "g", "a", t, 1);
    attribute_of(f, "d", "a", t, 2);
    attribute_of(f, "d", "b", t, 3);
    attribute_of(f, "/", "a", t, 1);
    OK(H5Tclose(t));
    attribute_gone(f, "d", "a");
    done(f);
}

/* a type that no link names any more, kept by the dataset that shares it */
static void committed_unlinked(const char *path)
{
    hid_t f = create(path);
    commit(f, "t", H5T_STD_I32LE);
    with_committed(f, "d", "t", 2);
    drop(f, "t");
    done(f);
}

static void committed_record(const char *path)
{
    hid_t f = create(path);
    hid_t t = OK(H5Tcreate(H5T_COMPOUND, 12));
    OK(H5Tinsert(t, "x", 0, H5T_STD_I32LE));
    OK(H5Tinsert(t, "y", 4, H5T_IEEE_F64LE));
    commit(f, "record", t);
    OK(H5Tclose(t));
    with_committed(f, "d", "record", 2);
    done(f);
}

static void committed_itself(const char *path)
{
    hid_t f = create(path);
    commit(f, "t", H5T_STD_I32LE);
    hid_t t = OK(H5Topen2(f, "t", H5P_DEFAULT));
    attribute_of(f, "t", "a", t, 1);
    OK(H5Tclose(t));
    done(f);
}

/* attributes on every kind of object, of a committed datatype and of their own */
static void on_every_kind(hid_t f, hid_t acpl)
{
    const char *holders[] = {"/", "g", "d", "t"};
    hid_t t = OK(H5Topen2(f, "t", H5P_DEFAULT));
    for (int i = 0; i < 4; i++) {
        attribute_with(f, holders[i], "\xc3\xa4", t, (hsize_t)i + 1, acpl);
        attribute_with(f, holders[i], "\xc3\xb6", H5T_STD_U8LE, (hsize_t)i + 1, acpl);
    }
    OK(H5Tclose(t));
}

static hid_t group_dataset_type(const char *path)
{
    hid_t f = create(path);
    group(f, "g");
    row(f, "d", H5T_STD_U8LE, 1);
    commit(f, "t", H5T_STD_I32LE);
    return f;
}

static void attribute_utf8(const char *path)
{
    hid_t f = group_dataset_type(path);
    hid_t acpl = OK(H5Pcreate(H5P_ATTRIBUTE_CREATE));
    OK(H5Pset_char_encoding(acpl, H5T_CSET_UTF8));
    on_every_kind(f, acpl);
    OK(H5Pclose(acpl));
    done(f);
}

/* attributes of a newer version in headers of the old one */
static void reopened_v18_attributes(const char *path)
{
    done(group_dataset_type(path));
    hid_t f = reopen_with(path, access_list(H5F_LIBVER_V18, H5F_LIBVER_LATEST));
    on_every_kind(f, H5P_DEFAULT);
    done(f);
}

/* a type that never had a name */
static void committed_anonymous(const char *path)
{
    hid_t f = create(path);
    hid_t t = OK(H5Tcopy(H5T_STD_I32LE));
    hid_t tcpl = untimed(H5P_DATATYPE_CREATE);
    OK(H5Tcommit_anon(f, t, tcpl, H5P_DEFAULT));
    attribute_of(f, "/", "a", t, 1);
    OK(H5Pclose(tcpl));
    OK(H5Tclose(t));
    done(f);
}

/* the copy gets a copy of the committed datatype, without a name */
static void committed_copied(const char *path)
{
    hid_t f = create(path);
    commit(f, "t", H5T_STD_I32LE);
    hid_t t = OK(H5Topen2(f, "t", H5P_DEFAULT));
    row(f, "d", t, 3);
    attribute_of(f, "d", "a", t, 1);
    OK(H5Tclose(t));
    OK(H5Ocopy(f, "d", f, "e", H5P_DEFAULT, H5P_DEFAULT));
    done(f);
}

static void comments(const char *path)
{
    hid_t f = create(path);
    group(f, "g");
    row(f, "d", H5T_STD_U8LE, 1);
    commit(f, "t", H5T_STD_U8LE);
    OK(H5Oset_comment_by_name(f, "/", "the root", H5P_DEFAULT));
    OK(H5Oset_comment_by_name(f, "g", "a group's comment, longer than its header has room for", H5P_DEFAULT));
    OK(H5Oset_comment_by_name(f, "d", "x", H5P_DEFAULT));
    OK(H5Oset_comment_by_name(f, "t", "", H5P_DEFAULT));
    done(f);
}

static void times(const char *path)
{
    const hsize_t n = 2;
    hid_t f = create(path);
    hid_t space = OK(H5Screate_simple(1, &n, NULL));
    hid_t set = OK(H5Dcreate2(f, "d", H5T_STD_U8LE, space, H5P_DEFAULT, H5P_DEFAULT, H5P_DEFAULT));
    write_all(set, 1);
    OK(H5Dclose(set));
    OK(H5Sclose(space));
    hid_t t = OK(H5Tcopy(H5T_STD_U8LE));
    OK(H5Tcommit2(f, "t", t, H5P_DEFAULT, H5P_DEFAULT, H5P_DEFAULT));
    OK(H5Tclose(t));
    group(f, "g");
    done(f);
    f = reopen(path);
    attribute(f, "d", "a", 1);
    attribute(f, "t", "a", 1);
    done(f);
}

static void raised_count(const char *path)
{
    hid_t f = create(path);
    group(f, "g");
    row(f, "d", H5T_STD_U8LE, 1);
    row(f, "e", H5T_STD_U8LE, 1);
    commit(f, "t", H5T_STD_U8LE);
    hid_t o = OK(H5Oopen(f, "d", H5P_DEFAULT));
    OK(H5Oincr_refcount(o));
    OK(H5Oincr_refcount(o));
    OK(H5Oclose(o));
    o = OK(H5Oopen(f, "g", H5P_DEFAULT));
    OK(H5Oincr_refcount(o));
    OK(H5Oclose(o));
    hard(f, "e", "f");
    o = OK(H5Oopen(f, "e", H5P_DEFAULT));
    OK(H5Odecr_refcount(o));
    OK(H5Oclose(o));
    done(f);
}

/* ---- recipes: files not closed ---- */

static void killed_after_flush(const char *path)
{
    hid_t f = create(path);
    group(f, "g");
    row(f, "g/d", H5T_STD_I32LE, 6);
    hard(f, "g/d", "d");
    OK(H5Fflush(f, H5F_SCOPE_GLOBAL));
    /* what follows stays in the library's memory */
    group(f, "lost");
    row(f, "lost/d", H5T_STD_I32LE, 6);
    hard(f, "g/d", "g/e");
    raise(SIGKILL);
}

static void killed_second_opening(const char *path)
{
    hid_t f = create(path);
    group(f, "g");
    row(f, "g/d", H5T_STD_I32LE, 6);
    done(f);
    f = reopen(path);
    hard(f, "g/d", "g/e");
    attribute(f, "g/d", "a", 100);
    OK(H5Fflush(f, H5F_SCOPE_GLOBAL));
    drop(f, "g/d");
    raise(SIGKILL);
}

static void killed_unflushed(const char *path)
{
    hid_t f = create(path);
    group(f, "g");
    row(f, "g/d", H5T_STD_I32LE, 6);
    raise(SIGKILL);
}

/* ---- recipes: limits ---- */

static void objects(const char *path, int count)
{
    char name[16];
    hid_t f = create_k(path, 8, 8, 0);
    for (int i = 1; i < count; i++) {
        sprintf(name, "o%03d", i);
        if (i % 8)
            commit(f, name, i % 3 ? H5T_STD_U8LE : H5T_IEEE_F32BE);
        else
            dataset_layout(f, name, H5T_STD_U8LE, 0, NULL, H5D_COMPACT, (unsigned)i);
    }
    hard(f, "o001", "z");
    done(f);
}

static void objects_256(const char *path)
{
    objects(path, 256);
}

static void objects_257(const char *path)
{
    objects(path, 257);
}

/* the superblock, four blocks a group (header, heap, segment, tree node), one a committed datatype, and the symbol nodes and
 * further tree nodes that the names need; tree K 1 and small heaps keep the file small */
static void blocks(const char *path, int groups, int types)
{
    char name[16];
    hid_t f = create_k(path, 1, 6, 0);
    for (int i = 0; i < groups; i++) {
        if (i % 12 == 0) {
            sprintf(name, "g%02d", i / 12);
            tight_group(f, name, 120);
        }
        else {
            sprintf(name, "g%02d/n%02d", i / 12, i % 12);
            tight_group(f, name, 1);
        }
    }
    for (int i = 0; i < types; i++) {
        sprintf(name, "g%02d/t", i);
        commit(f, name, H5T_STD_U8LE);
    }
    done(f);
}

static void blocks_1024(const char *path)
{
    blocks(path, BLOCK_GROUPS, BLOCK_TYPES);
}

static void blocks_1025(const char *path)
{
    blocks(path, BLOCK_GROUPS, BLOCK_TYPES + 1);
}

/* ---- recipes: bounds of the library's versions ---- */

static void small_content(hid_t f)
{
    group(f, "g");
    row(f, "g/d", H5T_STD_I32LE, 3);
    hard(f, "g/d", "d");
    attribute(f, "d", "a", 2);
    done(f);
}

static void bounds_v18(const char *path)
{
    hid_t fapl = access_list(H5F_LIBVER_EARLIEST, H5F_LIBVER_V18);
    hid_t f = OK(H5Fcreate(path, H5F_ACC_TRUNC, H5P_DEFAULT, fapl));
    OK(H5Pclose(fapl));
    small_content(f);
}

static void bounds_default(const char *path)
{
    small_content(OK(H5Fcreate(path, H5F_ACC_TRUNC, H5P_DEFAULT, H5P_DEFAULT)));
}

static void bounds_v18_v18(const char *path)
{
    hid_t fapl = access_list(H5F_LIBVER_V18, H5F_LIBVER_V18);
    hid_t f = OK(H5Fcreate(path, H5F_ACC_TRUNC, H5P_DEFAULT, fapl));
    OK(H5Pclose(fapl));
    small_content(f);
}

static void bounds_latest(const char *path)
{
    hid_t fapl = access_list(H5F_LIBVER_LATEST, H5F_LIBVER_LATEST);
    hid_t f = OK(H5Fcreate(path, H5F_ACC_TRUNC, H5P_DEFAULT, fapl));
    OK(H5Pclose(fapl));
    small_content(f);
}

/* a file of the old kind, to which the library adds in its newest formats */
static void reopened_latest(const char *path)
{
    hid_t f = create(path);
    group(f, "g");
    row(f, "g/d", H5T_STD_I32LE, 3);
    done(f);
    f = reopen_with(path, access_list(H5F_LIBVER_LATEST, H5F_LIBVER_LATEST));
    row(f, "g/new", H5T_STD_I32LE, 3);
    hard(f, "g/new", "new");
    done(f);
}

/* the same with a group; without times its header's bytes from 8 on look like a short length */
static void reopened_latest_group(const char *path)
{
    done(create(path));
    hid_t f = reopen_with(path, access_list(H5F_LIBVER_LATEST, H5F_LIBVER_LATEST));
    hid_t gcpl = untimed(H5P_GROUP_CREATE);
    OK(H5Gclose(OK(H5Gcreate2(f, "g", H5P_DEFAULT, gcpl, H5P_DEFAULT))));
    OK(H5Pclose(gcpl));
    hard(f, "g", "h");
    done(f);
}

/* only links and an attribute are added: what is there keeps its format */
static void reopened_latest_links(const char *path)
{
    hid_t f = create(path);
    group(f, "g");
    row(f, "g/d", H5T_STD_I32LE, 3);
    done(f);
    f = reopen_with(path, access_list(H5F_LIBVER_LATEST, H5F_LIBVER_LATEST));
    hard(f, "g/d", "d");
    soft(f, "g/d", "s");
    attribute(f, "g", "a", 1);
    done(f);
}

/* ---- recipes: outside the scope ---- */

static void null_space(const char *path)
{
    hid_t f = create(path);
    hid_t space = OK(H5Screate(H5S_NULL));
    hid_t dcpl = untimed(H5P_DATASET_CREATE);
    OK(H5Dclose(OK(H5Dcreate2(f, "d", H5T_STD_U8LE, space, H5P_DEFAULT, dcpl, H5P_DEFAULT))));
    OK(H5Pclose(dcpl));
    OK(H5Sclose(space));
    done(f);
}

/* an attribute's dataspace isn't read, so the file is within the scope */
static void null_attribute(const char *path)
{
    hid_t f = create(path);
    hid_t space = OK(H5Screate(H5S_NULL));
    group(f, "g");
    hid_t g = OK(H5Gopen2(f, "g", H5P_DEFAULT));
    OK(H5Aclose(OK(H5Acreate2(g, "a", H5T_STD_U8LE, space, H5P_DEFAULT, H5P_DEFAULT))));
    OK(H5Gclose(g));
    OK(H5Sclose(space));
    done(f);
}

static hid_t chunks(int rank, const hsize_t *sizes)
{
    hid_t dcpl = OK(H5Pcreate(H5P_DATASET_CREATE));
    OK(H5Pset_chunk(dcpl, rank, sizes));
    return dcpl;
}

static void chunked(const char *path)
{
    const hsize_t dims[2] = {5, 7}, sizes[2] = {2, 3};
    hid_t f = create(path);
    hid_t dcpl = chunks(2, sizes);
    dataset_with(f, "d", H5T_STD_I16LE, 2, dims, dcpl, 1);
    dataset_with(f, "unwritten", H5T_STD_I16LE, 2, dims, dcpl, UNWRITTEN);
    hard(f, "d", "e");
    OK(H5Pclose(dcpl));
    done(f);
}

static void chunked_filters(const char *path)
{
    const hsize_t dims = 40, size = 16;
    hid_t f = create(path);
    hid_t dcpl = chunks(1, &size);
    OK(H5Pset_shuffle(dcpl));
    OK(H5Pset_deflate(dcpl, 6));
    OK(H5Pset_fletcher32(dcpl));
    dataset_with(f, "d", H5T_STD_I32LE, 1, &dims, dcpl, 1);
    OK(H5Pclose(dcpl));
    done(f);
}

/* a version 1 superblock whose K for chunk trees is 1, and a chunk tree of several levels */
static void chunked_levels(const char *path)
{
    const hsize_t dims = 8, max = H5S_UNLIMITED, size = 1;
    hid_t f = create_k(path, 0, 0, 2);
    hid_t dcpl = chunks(1, &size);
    OK(H5Pset_obj_track_times(dcpl, 0));
    hid_t space = OK(H5Screate_simple(1, &dims, &max));
    hid_t set = OK(H5Dcreate2(f, "d", H5T_STD_U8LE, space, H5P_DEFAULT, dcpl, H5P_DEFAULT));
    write_all(set, 1);
    const hsize_t more = 14;
    OK(H5Dset_extent(set, &more));
    OK(H5Sclose(space));
    OK(H5Dclose(set));
    OK(H5Pclose(dcpl));
    done(f);
}

static void external_link(const char *path)
{
    hid_t f = create(path);
    row(f, "d", H5T_STD_U8LE, 1);
    OK(H5Lcreate_external("other.h5", "/d", f, "far", H5P_DEFAULT, H5P_DEFAULT));
    done(f);
}

static void external_link_in_group(const char *path)
{
    hid_t f = create(path);
    group(f, "g");
    row(f, "g/d", H5T_STD_U8LE, 1);
    OK(H5Lcreate_external("other.h5", "/d", f, "g/far", H5P_DEFAULT, H5P_DEFAULT));
    done(f);
}

static void external_data(const char *path)
{
    const hsize_t n = 4;
    hid_t f = create(path);
    hid_t dcpl = OK(H5Pcreate(H5P_DATASET_CREATE));
    OK(H5Pset_external(dcpl, "other.bin", 0, 4));
    dataset_with(f, "d", H5T_STD_U8LE, 1, &n, dcpl, UNWRITTEN);
    OK(H5Pclose(dcpl));
    done(f);
}

static void virtual_dataset(const char *path)
{
    const hsize_t n = 4;
    hid_t f = create(path);
    hid_t space = OK(H5Screate_simple(1, &n, NULL));
    hid_t dcpl = OK(H5Pcreate(H5P_DATASET_CREATE));
    OK(H5Pset_virtual(dcpl, space, "other.h5", "/d", space));
    dataset_with(f, "d", H5T_STD_U8LE, 1, &n, dcpl, UNWRITTEN);
    OK(H5Pclose(dcpl));
    OK(H5Sclose(space));
    done(f);
}

static void link_order(const char *path)
{
    hid_t f = create(path);
    hid_t gcpl = OK(H5Pcreate(H5P_GROUP_CREATE));
    OK(H5Pset_link_creation_order(gcpl, H5P_CRT_ORDER_TRACKED));
    OK(H5Gclose(OK(H5Gcreate2(f, "g", H5P_DEFAULT, gcpl, H5P_DEFAULT))));
    OK(H5Pclose(gcpl));
    row(f, "g/d", H5T_STD_U8LE, 1);
    hard(f, "g/d", "d");
    done(f);
}

static void attribute_order(const char *path)
{
    const hsize_t n = 1;
    hid_t f = create(path);
    hid_t dcpl = OK(H5Pcreate(H5P_DATASET_CREATE));
    OK(H5Pset_attr_creation_order(dcpl, H5P_CRT_ORDER_TRACKED));
    dataset_with(f, "d", H5T_STD_U8LE, 1, &n, dcpl, 1);
    OK(H5Pclose(dcpl));
    attribute(f, "d", "a", 1);
    hard(f, "d", "e");
    done(f);
}

static void attribute_order_group(const char *path)
{
    hid_t f = create(path);
    hid_t gcpl = untimed(H5P_GROUP_CREATE);
    OK(H5Pset_attr_creation_order(gcpl, H5P_CRT_ORDER_TRACKED));
    OK(H5Gclose(OK(H5Gcreate2(f, "g", H5P_DEFAULT, gcpl, H5P_DEFAULT))));
    OK(H5Pclose(gcpl));
    row(f, "g/d", H5T_STD_U8LE, 1);
    hard(f, "g", "h");
    done(f);
}

static void user_block(const char *path)
{
    hid_t fcpl = OK(H5Pcreate(H5P_FILE_CREATE));
    OK(H5Pset_userblock(fcpl, 512));
    hid_t fapl = earliest();
    hid_t f = OK(H5Fcreate(path, H5F_ACC_TRUNC, fcpl, fapl));
    OK(H5Pclose(fapl));
    OK(H5Pclose(fcpl));
    row(f, "d", H5T_STD_U8LE, 1);
    done(f);
}

static void sizes_4(const char *path)
{
    hid_t fcpl = OK(H5Pcreate(H5P_FILE_CREATE));
    OK(H5Pset_sizes(fcpl, 4, 4));
    hid_t fapl = earliest();
    hid_t f = OK(H5Fcreate(path, H5F_ACC_TRUNC, fcpl, fapl));
    OK(H5Pclose(fapl));
    OK(H5Pclose(fcpl));
    row(f, "d", H5T_STD_U8LE, 1);
    done(f);
}

static void driver_block(const char *path)
{
    /* the family driver wants a place for a number in the name; one member is enough */
    char members[1000], first[1000];
    sprintf(members, "%s.%%d", path);
    sprintf(first, "%s.0", path);
    hid_t fapl = earliest();
    OK(H5Pset_fapl_family(fapl, 65536, H5P_DEFAULT));
    hid_t f = OK(H5Fcreate(members, H5F_ACC_TRUNC, H5P_DEFAULT, fapl));
    OK(H5Pclose(fapl));
    row(f, "d", H5T_STD_U8LE, 1);
    done(f);
    OK(rename(first, path));
}

static void file_space(const char *path)
{
    hid_t fcpl = OK(H5Pcreate(H5P_FILE_CREATE));
    OK(H5Pset_file_space_strategy(fcpl, H5F_FSPACE_STRATEGY_FSM_AGGR, 1, 1));
    hid_t fapl = earliest();
    hid_t f = OK(H5Fcreate(path, H5F_ACC_TRUNC, fcpl, fapl));
    OK(H5Pclose(fapl));
    OK(H5Pclose(fcpl));
    row(f, "d", H5T_STD_U8LE, 100);
    row(f, "e", H5T_STD_U8LE, 1);
    drop(f, "d");
    done(f);
}

static void shared_messages(const char *path)
{
    hid_t fcpl = OK(H5Pcreate(H5P_FILE_CREATE));
    OK(H5Pset_shared_mesg_nindexes(fcpl, 1));
    OK(H5Pset_shared_mesg_index(fcpl, 0, H5O_SHMESG_DTYPE_FLAG, 8));
    hid_t fapl = earliest();
    hid_t f = OK(H5Fcreate(path, H5F_ACC_TRUNC, fcpl, fapl));
    OK(H5Pclose(fapl));
    OK(H5Pclose(fcpl));
    row(f, "d", H5T_STD_U8LE, 1);
    row(f, "e", H5T_STD_U8LE, 1);
    done(f);
}

static void one_of_type(const char *path, hid_t type)
{
    const hsize_t n = 2;
    hid_t f = create(path);
    dataset_layout(f, "d", type, 1, &n, H5D_CONTIGUOUS, UNWRITTEN);
    hard(f, "d", "e");
    OK(H5Tclose(type));
    done(f);
}

static void type_time(const char *path)
{
    one_of_type(path, OK(H5Tcopy(H5T_UNIX_D32LE)));
}

static void type_compound(const char *path)
{
    hid_t inner = OK(H5Tcreate(H5T_COMPOUND, 3));
    OK(H5Tinsert(inner, "p", 0, H5T_STD_U8LE));
    OK(H5Tinsert(inner, "q", 1, H5T_STD_U16BE));
    hid_t t = OK(H5Tcreate(H5T_COMPOUND, 20));
    OK(H5Tinsert(t, "x", 0, H5T_STD_I32LE));
    OK(H5Tinsert(t, "inner", 4, inner));
    OK(H5Tinsert(t, "y", 8, H5T_IEEE_F64LE));
    OK(H5Tclose(inner));
    one_of_type(path, t);
}

static void type_reference(const char *path)
{
    one_of_type(path, OK(H5Tcopy(H5T_STD_REF_OBJ)));
}

static void type_enum(const char *path)
{
    hid_t t = OK(H5Tenum_create(H5T_STD_I16LE));
    for (short i = 0; i < 3; i++) {
        static const char *names[] = {"RED", "GREEN", "BLUE"};
        short value = i;
        OK(H5Tconvert(H5T_NATIVE_SHORT, H5T_STD_I16LE, 1, &value, NULL, H5P_DEFAULT));
        OK(H5Tenum_insert(t, names[i], &value));
    }
    one_of_type(path, t);
}

static void type_vlen(const char *path)
{
    one_of_type(path, OK(H5Tvlen_create(H5T_STD_I32LE)));
}

static void type_vlen_string(const char *path)
{
    hid_t t = OK(H5Tcopy(H5T_C_S1));
    OK(H5Tset_size(t, H5T_VARIABLE));
    one_of_type(path, t);
}

static void type_array(const char *path)
{
    const hsize_t dims[2] = {2, 3};
    one_of_type(path, OK(H5Tarray_create2(H5T_STD_I32LE, 2, dims)));
}

/* ---- the table ---- */

/* Expected answers are read off document 01 by hand: a number, or "3|5" and the like where a file's bytes, or the release,
 * decide. */
typedef struct {
    const char *name;
    void (*write)(const char *path);
    int killed;
    const char *expected;
    const char *purpose;
} recipe;

#define IN(f, purpose) {#f, f, 0, "0", purpose}
#define KILLED(f, expected, purpose) {#f, f, 1, expected, purpose}
#define OUT(f, expected, purpose) {#f, f, 0, expected, purpose}

static const recipe recipes[] = {
    IN(empty, "the root group alone"),
    IN(superblock_1_empty, "the same with chunk K 16, so a version 1 superblock"),
    IN(superblock_1, "version 1 superblock with a group, a dataset of two names, a loop, a symbolic link"),
    IN(superblock_1_k, "version 1 superblock with tree K 2 and leaf K 3, a tree of several levels"),
    IN(two_names, "one dataset under two names in one group"),
    IN(three_names, "one dataset under three names in three groups"),
    IN(loop_root, "hard links to the root from the root and from a group below"),
    IN(loop_ancestor, "hard links to an ancestor, to the group itself, to a group that is met on another path"),
    IN(group_two_names, "a group under two names, and a dataset linked through both"),
    IN(soft_links, "symbolic links: absolute, relative, dangling, to itself, to the root, with a value of 1,000 bytes"),
    IN(nested, "twelve groups one in the other"),
    IN(packed, "no space reserved in advance: blocks without gaps"),
    IN(aligned, "space given out at multiples of 256: blocks with gaps"),
    IN(core_driver, "written by the driver that keeps a file in memory"),
    IN(tree_default, "61 names with the library's own K: several symbol nodes"),
    IN(tree_rising, "41 names inserted in rising order, tree K 2, leaf K 1: several levels"),
    IN(tree_falling, "41 names inserted in falling order"),
    IN(tree_mixed, "101 names inserted in mixed order, tree K 2, leaf K 2"),
    IN(tree_300, "301 names of one dataset: a count above 255"),
    IN(tree_wide_nodes, "tree K 100 and leaf K 60: large nodes, mostly unused"),
    IN(tree_k1, "tree K 1 and leaf K 1"),
    IN(tree_level_8, "tree K 1: a tree whose root has level 8, the highest read"),
    OUT(tree_level_9, "8", "one name more: a tree level above 8"),
    IN(names_odd, "names such as '..', with spaces, control bytes, bytes above 127, and names that begin others"),
    IN(name_255, "names of 255 bytes, the longest read"),
    OUT(name_256, "9", "names of 256 bytes"),
    IN(deletions, "every third of 24 names deleted: a heap with a free list"),
    IN(deletions_openings, "insertions and deletions over twelve openings"),
    IN(deletions_all, "all names deleted: an empty tree that had levels"),
    IN(deletions_tree, "first, last and inner names deleted from a tree of several levels"),
    IN(deletions_objects, "objects deleted, others kept alive by a second name, new ones in the space that became free"),
    IN(heap_growth, "names of 1 to 233 bytes, some deleted: a heap segment that moved"),
    IN(moved, "links moved, a group copied with its contents, a group linked after it was made"),
    IN(attributes, "six attributes each on the root, a group, a dataset, a committed datatype: continuations"),
    IN(attributes_openings, "attributes added over seven openings: many continuations"),
    IN(attributes_deleted, "attributes added and deleted over eight openings: null messages"),
    IN(attribute_large, "attributes of 4,000 and 8,000 bytes"),
    IN(attribute_types, "attributes of other classes: variable length, reference, array; an attribute's own datatype isn't read"),
    IN(null_attribute, "an attribute without elements; an attribute's dataspace isn't read"),
    IN(attribute_utf8, "attributes of version 3, since their names are UTF-8: on a group, a dataset, a committed datatype and the root one that shares it and one that doesn't"),
    IN(reopened_v18_attributes, "the same with bounds 1.8 to latest, in object headers that stay version 1"),
    IN(fixed_types, "class 0 in both byte orders, 1 to 11 bytes, partial precision, bit offset"),
    IN(fixed_unusual, "class 0 with precision 1 in 4 bytes, which newer releases write and read only when told to"),
    IN(float_types, "class 1 in both byte orders, 2 to 16 bytes, bit offset"),
    IN(float_vax, "class 1 in VAX byte order: datatype version 3"),
    IN(string_types, "class 3, three paddings, two character sets"),
    IN(bitfield_types, "class 4 in both byte orders, partial precision"),
    IN(opaque_types, "class 5 with and without a tag"),
    IN(compact, "compact data, of no bytes too, scalar, unwritten"),
    IN(contiguous, "contiguous data allocated early and late, written and not"),
    IN(zero_sized, "dimensions of 0"),
    IN(scalar, "scalar dataspaces"),
    IN(rank_32, "32 dimensions, the most"),
    IN(huge_unwritten, "sizes up to 2^60 of which no byte is allocated"),
    IN(fill_values, "fill values set, unset and undefined, and the times of filling"),
    IN(committed_unused, "committed datatypes of several classes, not shared; their bodies aren't read"),
    IN(committed_twice, "a committed datatype under two names"),
    IN(committed_shared, "a committed datatype of two names that three datasets share: count 5"),
    IN(committed_attributes, "a committed datatype that three attributes share: count 4; the root's comes before the links"),
    IN(committed_unlinked, "two datasets share a committed datatype that has no name any more: count 2"),
    IN(committed_record, "a committed compound type shared by two datasets: count 3"),
    IN(committed_itself, "a committed datatype with an attribute of its own type: count 2"),
    IN(committed_anonymous, "a committed datatype that never had a name, shared by an attribute: count 1"),
    IN(committed_copied, "a dataset with an attribute of one committed datatype, and its copy: the datatype is copied too, without a name"),
    IN(comments, "object comments"),
    IN(times, "modification times"),
    IN(raised_count, "counts raised and lowered by a program's own calls: stored 3 and true 1, 2 and 1, 1 and 2"),
    KILLED(killed_after_flush, "0", "the process ended after a flush; what followed is lost"),
    KILLED(killed_second_opening, "0", "the same in a second opening"),
    KILLED(killed_unflushed, "3", "the process ended before any flush: the superblock is there, the root's header is zeros, so version 0"),
    IN(objects_256, "256 objects"),
    IN(objects_257, "257 objects"),
    IN(blocks_1024, "1,024 blocks"),
    IN(blocks_1025, "1,025 blocks"),
    IN(bounds_v18, "library version bounds earliest to 1.8"),
    OUT(bounds_default, "0|3", "no bounds given: what the release writes by itself; 3 for a superblock version above 1"),
    OUT(bounds_v18_v18, "3", "bounds 1.8 to 1.8: a version 2 superblock"),
    OUT(bounds_latest, "3", "bounds latest to latest: a superblock version above 1"),
    OUT(reopened_latest, "3|5", "a version 0 file with a version 2 object header, added with bounds latest to latest"),
    OUT(reopened_latest_group, "3|5", "the same with a group"),
    IN(reopened_latest_links, "links and an attribute added with bounds latest to latest: old formats stay"),
    OUT(null_space, "3", "a dataset without elements: dataspace version 2"),
    OUT(chunked, "3", "chunked layout"),
    OUT(chunked_filters, "3", "chunked layout with filters: message 0x000b"),
    OUT(chunked_levels, "3", "chunk K 2, so a version 1 superblock; a chunk tree of several levels"),
    OUT(external_link, "3", "an external link: the root group has link messages"),
    OUT(external_link_in_group, "3", "an external link: a group has link messages"),
    OUT(external_data, "3", "data in another file: message 0x0007"),
    OUT(virtual_dataset, "3", "a virtual dataset"),
    OUT(link_order, "3", "a group that keeps the order of its links: link messages"),
    OUT(attribute_order, "3|5", "a dataset that keeps the order of its attributes: a version 2 object header in a version 0 file"),
    OUT(attribute_order_group, "3|5", "the same with a group: a version 2 header that names a symbol table"),
    OUT(user_block, "2", "a user block: no signature at offset 0"),
    OUT(sizes_4, "3", "offsets and lengths of 4 bytes"),
    OUT(driver_block, "3", "a driver information block"),
    OUT(file_space, "3", "free space kept over closings: a version 2 superblock or above"),
    OUT(shared_messages, "3", "a table of shared messages: a version 2 superblock"),
    OUT(type_time, "3", "datatype class 2"),
    OUT(type_compound, "3", "datatype class 6"),
    OUT(type_reference, "3", "datatype class 7"),
    OUT(type_enum, "3", "datatype class 8"),
    OUT(type_vlen, "3", "datatype class 9"),
    OUT(type_vlen_string, "3", "datatype class 9, a string"),
    OUT(type_array, "3", "datatype class 10"),
};

static int write_one(const recipe *r, const char *folder)
{
    char path[900];
    snprintf(path, sizeof path, "%s/%s.h5", folder, r->name);
    recipe_name = r->name;
    fflush(NULL);
    pid_t child = fork();
    if (child == 0) {
        r->write(path);
        OK(H5close());
        exit(0);
    }
    int status;
    if (child < 0 || waitpid(child, &status, 0) != child)
        return 1;
    if (r->killed ? WIFSIGNALED(status) && WTERMSIG(status) == SIGKILL : WIFEXITED(status) && WEXITSTATUS(status) == 0)
        return 0;
    fprintf(stderr, "recipe %s failed\n", r->name);
    return 1;
}

int main(int argc, char **argv)
{
    const size_t count = sizeof recipes / sizeof *recipes;
    if (argc == 2 && strcmp(argv[1], "version") == 0) {
        unsigned major, minor, release;
        OK(H5get_libversion(&major, &minor, &release));
        printf("%u.%u.%u\n", major, minor, release);
        return 0;
    }
    if (argc == 2 && strcmp(argv[1], "list") == 0) {
        for (size_t i = 0; i < count; i++)
            printf("%s %s %s\n", recipes[i].name, recipes[i].expected, recipes[i].purpose);
        return 0;
    }
    if (argc == 3 && strcmp(argv[1], "write") == 0) {
        int failed = 0;
        for (size_t i = 0; i < count; i++)
            failed += write_one(&recipes[i], argv[2]);
        return failed != 0;
    }
    fprintf(stderr, "usage: generate version | list | write FOLDER\n");
    return 2;
}
