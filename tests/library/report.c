/* Prints what the HDF5 library reports about one file, as lines of the manifest (README.md has their format).
 *
 *   report FILE
 *
 * Objects are those that hard links and sharings reach, in the order in which they are met: the root first; of each object the
 * committed datatypes that its attributes share, as they stand in its header, then the one that a dataset shares, or a
 * group's links by name. A group's path is the one on which it was met first; every hard link gives its object one path, so an
 * object has as many paths as hard links, the root one more ("/"), and a committed datatype may have none. Compile with
 * -DH5_USE_110_API. */
#include <stdint.h>
#include <stdio.h>
#include <stdlib.h>
#include <string.h>

#include <hdf5.h>

static void *room(void *old, size_t n)
{
    void *p = realloc(old, n ? n : 1);
    if (!p) {
        fprintf(stderr, "no memory\n");
        exit(1);
    }
    return p;
}

static void must(long long value, const char *what)
{
    if (value < 0) {
        fprintf(stderr, "%s failed\n", what);
        exit(1);
    }
}

/* FNV-1a, 64 bits */
static uint64_t sum(const unsigned char *data, size_t n)
{
    uint64_t h = 0xcbf29ce484222325u;
    for (size_t i = 0; i < n; i++)
        h = (h ^ data[i]) * 0x100000001b3u;
    return h;
}

/* bytes but printable ones above the space, and '%', as % and two hexadecimal digits */
static void escaped(const char *text)
{
    for (const unsigned char *p = (const unsigned char *)text; *p; p++)
        if (*p <= ' ' || *p > '~' || *p == '%')
            printf("%%%02x", *p);
        else
            putchar(*p);
}

typedef struct {
    haddr_t address;
    char *path; /* the first one, if it has any */
    char **paths;
    size_t count;
} object;

static object *objects;
static size_t object_count;
static struct {
    char *path, *value;
} *softs;
static size_t soft_count;
static char **others;
static size_t other_count;

static object *met(haddr_t address)
{
    for (size_t i = 0; i < object_count; i++)
        if (objects[i].address == address)
            return objects + i;
    objects = room(objects, (object_count + 1) * sizeof *objects);
    objects[object_count] = (object){address, NULL, NULL, 0};
    return objects + object_count++;
}

static void link_to(haddr_t address, char *path)
{
    object *o = met(address);
    if (!o->path)
        o->path = path;
    o->paths = room(o->paths, (o->count + 1) * sizeof *o->paths);
    o->paths[o->count++] = path;
}

static herr_t each(hid_t group, const char *name, const H5L_info_t *info, void *data)
{
    const char *parent = data;
    char *path = room(NULL, strlen(parent) + strlen(name) + 2);
    sprintf(path, "%s%s%s", parent, strcmp(parent, "/") ? "/" : "", name);
    if (info->type == H5L_TYPE_HARD)
        link_to(info->u.address, path);
    else if (info->type == H5L_TYPE_SOFT) {
        char *value = room(NULL, info->u.val_size + 1);
        must(H5Lget_val(group, name, value, info->u.val_size, H5P_DEFAULT), "H5Lget_val");
        softs = room(softs, (soft_count + 1) * sizeof *softs);
        softs[soft_count].path = path;
        softs[soft_count++].value = value;
    }
    else {
        others = room(others, (other_count + 1) * sizeof *others);
        others[other_count++] = path;
    }
    return 0;
}

static int by_bytes(const void *a, const void *b)
{
    return strcmp(*(char *const *)a, *(char *const *)b);
}

static int by_path(const void *a, const void *b)
{
    return by_bytes(a, b);
}

static void chunked(hid_t set, hid_t space, hid_t dcpl, int rank)
{
    hsize_t sizes[H5S_MAX_RANK], offset[H5S_MAX_RANK];
    must(H5Pget_chunk(dcpl, rank, sizes), "H5Pget_chunk");
    printf("chunked");
    for (int i = 0; i < rank; i++)
        printf(" %llu", (unsigned long long)sizes[i]);
    printf("\nfilters");
    for (int i = 0; i < H5Pget_nfilters(dcpl); i++) {
        unsigned flags;
        size_t none = 0;
        printf(" %d", (int)H5Pget_filter2(dcpl, (unsigned)i, &flags, &none, NULL, 0, NULL, NULL));
    }
    printf("\n");
    hsize_t count = 0;
    must(H5Dget_num_chunks(set, space, &count), "H5Dget_num_chunks");
    for (hsize_t c = 0; c < count; c++) {
        unsigned mask;
        haddr_t address;
        hsize_t stored;
        must(H5Dget_chunk_info(set, space, c, offset, &mask, &address, &stored), "H5Dget_chunk_info");
        printf("chunk %llu %llu %u", (unsigned long long)address, (unsigned long long)stored, mask);
        for (int i = 0; i < rank; i++)
            printf(" %llu", (unsigned long long)offset[i]);
        printf("\n");
    }
}

/* the address of a committed datatype, else 0 */
static haddr_t committed(hid_t type)
{
    H5O_info_t info;
    if (H5Tcommitted(type) <= 0)
        return 0;
    must(H5Oget_info(type, &info), "H5Oget_info");
    return info.addr;
}

/* the address of the committed datatype that an attribute shares, else 0; by name, or as they stand in the header */
static haddr_t shared_by(hid_t id, hsize_t number, H5_iter_order_t order)
{
    hid_t attr = H5Aopen_by_idx(id, ".", H5_INDEX_NAME, order, number, H5P_DEFAULT, H5P_DEFAULT);
    must(attr, "H5Aopen_by_idx");
    hid_t type = H5Aget_type(attr);
    must(type, "H5Aget_type");
    haddr_t shared = committed(type);
    must(H5Tclose(type), "H5Tclose");
    must(H5Aclose(attr), "H5Aclose");
    return shared;
}

/* meets all that an object shares or links to */
static void meet_from(hid_t id, char *path)
{
    H5O_info_t info;
    must(H5Oget_info(id, &info), "H5Oget_info");
    for (hsize_t i = 0; i < info.num_attrs; i++) {
        haddr_t shared = shared_by(id, i, H5_ITER_NATIVE);
        if (shared)
            met(shared);
    }
    if (H5Iget_type(id) == H5I_DATASET) {
        hid_t type = H5Dget_type(id);
        must(type, "H5Dget_type");
        haddr_t shared = committed(type);
        if (shared)
            met(shared);
        must(H5Tclose(type), "H5Tclose");
    }
    if (H5Iget_type(id) == H5I_GROUP)
        must(H5Literate(id, H5_INDEX_NAME, H5_ITER_INC, NULL, each, path), "H5Literate");
}

static void dataset(hid_t set)
{
    hsize_t sizes[H5S_MAX_RANK], maxima[H5S_MAX_RANK];
    hid_t space = H5Dget_space(set), type = H5Dget_type(set), dcpl = H5Dget_create_plist(set);
    must(space, "H5Dget_space");
    must(type, "H5Dget_type");
    must(dcpl, "H5Dget_create_plist");
    int rank = H5Sget_simple_extent_dims(space, sizes, maxima);
    if (H5Sget_simple_extent_type(space) == H5S_NULL)
        printf("space null\n");
    else {
        printf("space %d", rank);
        for (int i = 0; i < rank; i++)
            printf(" %llu", (unsigned long long)sizes[i]);
        for (int i = 0; i < rank; i++)
            printf(" %llu", (unsigned long long)maxima[i]);
        printf("\n");
    }
    H5T_class_t class = H5Tget_class(type);
    haddr_t shared = committed(type);
    /* the library calls a string of variable length a string; in the file it is of class 9 */
    if (class == H5T_STRING && H5Tis_variable_str(type) > 0)
        class = H5T_VLEN;
    printf("type %d %llu %llu\n", (int)class, (unsigned long long)H5Tget_size(type), (unsigned long long)shared);
    H5D_layout_t layout = H5Pget_layout(dcpl);
    haddr_t offset = H5Dget_offset(set);
    hsize_t storage = H5Dget_storage_size(set);
    printf("layout %d %llu %llu\n", (int)layout, (unsigned long long)offset, (unsigned long long)storage);
    int plain = class == H5T_INTEGER || class == H5T_FLOAT || class == H5T_STRING || class == H5T_BITFIELD || class == H5T_OPAQUE;
    if (plain && (layout == H5D_COMPACT || (layout == H5D_CONTIGUOUS && offset != HADDR_UNDEF)) && storage > 0) {
        unsigned char *data = room(NULL, storage);
        must(H5Dread(set, type, H5S_ALL, H5S_ALL, H5P_DEFAULT, data), "H5Dread");
        printf("data %016llx\n", (unsigned long long)sum(data, storage));
        free(data);
    }
    if (layout == H5D_CHUNKED)
        chunked(set, space, dcpl, rank);
    H5Pclose(dcpl);
    H5Tclose(type);
    H5Sclose(space);
}

static void whole_object(hid_t file, object *o)
{
    H5O_info_t info;
    hid_t id = H5Oopen_by_addr(file, o->address);
    must(id, "H5Oopen_by_addr");
    must(H5Oget_info(id, &info), "H5Oget_info");
    if (info.addr != o->address) {
        fprintf(stderr, "an object's address isn't its link's\n");
        exit(1);
    }
    int kind = info.type == H5O_TYPE_GROUP ? 1 : info.type == H5O_TYPE_DATASET ? 2 : info.type == H5O_TYPE_NAMED_DATATYPE ? 3 : 0;
    printf("object %llu %d %u %u %u %u %llu\n", (unsigned long long)info.addr, kind, info.rc, info.hdr.version, info.hdr.nmesgs,
           info.hdr.nchunks, (unsigned long long)info.num_attrs);
    if (o->count)
        qsort(o->paths, o->count, sizeof *o->paths, by_bytes);
    for (size_t i = 0; i < o->count; i++) {
        printf("path ");
        escaped(o->paths[i]);
        printf("\n");
    }
    if (kind == 2)
        dataset(id);
    for (hsize_t i = 0; i < info.num_attrs; i++) {
        haddr_t shared = shared_by(id, i, H5_ITER_INC);
        if (shared)
            printf("sharing %llu\n", (unsigned long long)shared);
    }
    must(H5Oclose(id), "H5Oclose");
}

static int opened(const char *path)
{
    H5F_info2_t about;
    H5O_info_t info;
    hid_t file = H5I_INVALID_HID;
    hid_t fapl = H5Pcreate(H5P_FILE_ACCESS);
#if H5_VERSION_GE(1, 14, 4)
    must(H5Pset_relax_file_integrity_checks(fapl, H5F_RFIC_UNUSUAL_NUM_UNUSED_NUMERIC_BITS), "H5Pset_relax_file_integrity_checks");
#endif
    H5E_BEGIN_TRY
    {
        file = H5Fopen(path, H5F_ACC_RDONLY, fapl);
    }
    H5E_END_TRY
    H5Pclose(fapl);
    if (file < 0)
        return 0;
    unsigned tree_k, leaf_k, chunk_k;
    hid_t fcpl = H5Fget_create_plist(file);
    must(H5Pget_sym_k(fcpl, &tree_k, &leaf_k), "H5Pget_sym_k");
    must(H5Pget_istore_k(fcpl, &chunk_k), "H5Pget_istore_k");
    must(H5Fget_info2(file, &about), "H5Fget_info2");
    must(H5Pclose(fcpl), "H5Pclose");
    printf("superblock %u %u %u %u\n", about.super.version, leaf_k, tree_k, chunk_k);
    must(H5Oget_info_by_name(file, "/", &info, H5P_DEFAULT), "H5Oget_info_by_name");
    link_to(info.addr, "/");
    for (size_t i = 0; i < object_count; i++) {
        hid_t id = H5Oopen_by_addr(file, objects[i].address);
        must(id, "H5Oopen_by_addr");
        meet_from(id, objects[i].path);
        must(H5Oclose(id), "H5Oclose");
    }
    for (size_t i = 0; i < object_count; i++)
        whole_object(file, objects + i);
    if (soft_count)
        qsort(softs, soft_count, sizeof *softs, by_path);
    for (size_t i = 0; i < soft_count; i++) {
        printf("soft ");
        escaped(softs[i].path);
        printf(" ");
        escaped(softs[i].value);
        printf("\n");
    }
    for (size_t i = 0; i < other_count; i++) {
        printf("other ");
        escaped(others[i]);
        printf("\n");
    }
    must(H5Fclose(file), "H5Fclose");
    return 1;
}

int main(int argc, char **argv)
{
    if (argc != 2) {
        fprintf(stderr, "usage: report FILE\n");
        return 2;
    }
    FILE *in = fopen(argv[1], "rb");
    must(in ? 0 : -1, "fopen");
    unsigned char *data = NULL;
    size_t n = 0, got;
    do {
        data = room(data, n + 4096);
        got = fread(data + n, 1, 4096, in);
        n += got;
    } while (got);
    fclose(in);
    printf("size %llu\nfnv1a %016llx\nby library\n", (unsigned long long)n, (unsigned long long)sum(data, n));
    if (!opened(argv[1]))
        printf("unopened\n");
    return 0;
}
