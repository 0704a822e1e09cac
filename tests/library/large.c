/* Writes a file of nearly 16 MiB with 1,000 datasets, ten of which have a second name.
 *
 * usage: large FILE
 */
#include <hdf5.h>
#include <stdio.h>
#include <stdlib.h>

#define DATASETS 1000
#define ELEMENTS 2047
#define SECOND_NAMES 10

static void check(int holds, const char *what)
{
    if (!holds) {
        fprintf(stderr, "large: %s\n", what);
        exit(1);
    }
}

static void write_dataset(hid_t file, int number)
{
    static double data[ELEMENTS];
    hsize_t size = ELEMENTS;
    char name[32], second[32];
    snprintf(name, sizeof name, "run_%04d", number);
    snprintf(second, sizeof second, "best_%04d", number);
    for (int i = 0; i < ELEMENTS; i++) {
        data[i] = number * 1000.0 + i * 0.5;
    }
    hid_t space = H5Screate_simple(1, &size, NULL);
    hid_t set = H5Dcreate2(file, name, H5T_NATIVE_DOUBLE, space, H5P_DEFAULT, H5P_DEFAULT, H5P_DEFAULT);
    check(H5Dwrite(set, H5T_NATIVE_DOUBLE, H5S_ALL, H5S_ALL, H5P_DEFAULT, data) >= 0, "a dataset");
    if (number % (DATASETS / SECOND_NAMES) == 0) {
        check(H5Lcreate_hard(file, name, file, second, H5P_DEFAULT, H5P_DEFAULT) >= 0, "a second name");
    }
    H5Dclose(set);
    H5Sclose(space);
}

int main(int count, char **arguments)
{
    check(count == 2, "usage: large FILE");
    hid_t access = H5Pcreate(H5P_FILE_ACCESS);
    H5Pset_libver_bounds(access, H5F_LIBVER_EARLIEST, H5F_LIBVER_LATEST);
    hid_t file = H5Fcreate(arguments[1], H5F_ACC_TRUNC, H5P_DEFAULT, access);
    check(file >= 0, "a file");
    for (int number = 0; number < DATASETS; number++) {
        write_dataset(file, number);
    }
    check(H5Fclose(file) >= 0, "the end of the file");
    H5Pclose(access);
    return 0;
}
