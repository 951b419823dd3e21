/* A part of files.c: the calls of the system that it makes, and those for memory. A test compiles it with
   ZX_TEST_SYSTEM, and then each of them goes through one table of functions, which the test fills; ZX_TEST_TABLE gives
   the test the table alone. In the library they are the system's own. */
#ifndef ZX_FILES_SYSTEM_H
#define ZX_FILES_SYSTEM_H

#include <sys/syscall.h>

/* The C library has no function for this call. */
static inline int userfaultfd(int how) { return (int)syscall(SYS_userfaultfd, how); }

#if defined ZX_TEST_SYSTEM || defined ZX_TEST_TABLE

struct zx_system {
    int (*open)(const char *path, int how);
    int (*openat)(int folder, const char *path, int how, mode_t mode);
    ssize_t (*pread)(int file, void *bytes, size_t len, off_t from);
    ssize_t (*pwrite)(int file, const void *bytes, size_t len, off_t from);
    int (*ftruncate)(int file, off_t len);
    int (*fallocate)(int file, int how, off_t from, off_t len);
    off_t (*lseek)(int file, off_t from, int whence);
    int (*fsync)(int file);
    int (*fdatasync)(int file);
    int (*syncfs)(int file);
    int (*flock)(int file, int how);
    int (*ioctl)(int file, unsigned long call, void *words);
    int (*lstat)(const char *path, struct stat *found);
    int (*stat)(const char *path, struct stat *found);
    int (*fstat)(int file, struct stat *found);
    int (*fstatat)(int folder, const char *path, struct stat *found, int how);
    int (*fstatfs)(int file, struct statfs *disk);
    int (*fchmod)(int file, mode_t mode);
    int (*fchown)(int file, uid_t user, gid_t group);
    ssize_t (*fgetxattr)(int file, const char *name, void *value, size_t room);
    int (*fsetxattr)(int file, const char *name, const void *value, size_t len, int how);
    int (*fremovexattr)(int file, const char *name);
    ssize_t (*flistxattr)(int file, char *names, size_t room);
    int (*linkat)(int from, const char *one, int to, const char *other, int how);
    int (*renameat)(int from, const char *one, int to, const char *other);
    int (*unlinkat)(int folder, const char *path, int how);
    void *(*mmap)(void *at, size_t len, int protection, int how, int file, off_t from);
    void *(*mremap)(void *at, size_t len, size_t wanted, int how);
    int (*munmap)(void *at, size_t len);
    int (*msync)(void *at, size_t len, int how);
    int (*madvise)(void *at, size_t len, int advice);
    int (*memfd_create)(const char *name, unsigned how);
    int (*userfaultfd)(int how);
    int (*close)(int file);
    void *(*malloc)(size_t size);
    void *(*calloc)(size_t count, size_t size);
    void (*free)(void *at);
    char *(*realpath)(const char *path, char *found);
    int (*pthread_atfork)(void (*before)(void), void (*after)(void), void (*in_child)(void));
};

extern struct zx_system zx_system;

#endif
#ifdef ZX_TEST_SYSTEM

#define open(path, how) zx_system.open(path, how)
#define openat(folder, path, how, mode) zx_system.openat(folder, path, how, mode)
#define pread(file, bytes, len, from) zx_system.pread(file, bytes, len, from)
#define pwrite(file, bytes, len, from) zx_system.pwrite(file, bytes, len, from)
#define ftruncate(file, len) zx_system.ftruncate(file, len)
#define fallocate(file, how, from, len) zx_system.fallocate(file, how, from, len)
#define lseek(file, from, whence) zx_system.lseek(file, from, whence)
#define fsync(file) zx_system.fsync(file)
#define fdatasync(file) zx_system.fdatasync(file)
#define syncfs(file) zx_system.syncfs(file)
#define flock(file, how) zx_system.flock(file, how)
#define ioctl(file, call, words) zx_system.ioctl(file, call, words)
#define lstat(path, found) zx_system.lstat(path, found)
#define stat(path, found) zx_system.stat(path, found)
#define fstat(file, found) zx_system.fstat(file, found)
#define fstatat(folder, path, found, how) zx_system.fstatat(folder, path, found, how)
#define fstatfs(file, disk) zx_system.fstatfs(file, disk)
#define fchmod(file, mode) zx_system.fchmod(file, mode)
#define fchown(file, user, group) zx_system.fchown(file, user, group)
#define fgetxattr(file, name, value, room) zx_system.fgetxattr(file, name, value, room)
#define fsetxattr(file, name, value, len, how) zx_system.fsetxattr(file, name, value, len, how)
#define fremovexattr(file, name) zx_system.fremovexattr(file, name)
#define flistxattr(file, names, room) zx_system.flistxattr(file, names, room)
#define linkat(from, one, to, other, how) zx_system.linkat(from, one, to, other, how)
#define renameat(from, one, to, other) zx_system.renameat(from, one, to, other)
#define unlinkat(folder, path, how) zx_system.unlinkat(folder, path, how)
#define mmap(at, len, protection, how, file, from) zx_system.mmap(at, len, protection, how, file, from)
#define mremap(at, len, wanted, how) zx_system.mremap(at, len, wanted, how)
#define munmap(at, len) zx_system.munmap(at, len)
#define msync(at, len, how) zx_system.msync(at, len, how)
#define madvise(at, len, advice) zx_system.madvise(at, len, advice)
#define memfd_create(name, how) zx_system.memfd_create(name, how)
#define userfaultfd(how) zx_system.userfaultfd(how)
#define close(file) zx_system.close(file)
#define malloc(size) zx_system.malloc(size)
#define calloc(count, size) zx_system.calloc(count, size)
#define free(at) zx_system.free(at)
#define realpath(path, found) zx_system.realpath(path, found)
#define pthread_atfork(before, after, in_child) zx_system.pthread_atfork(before, after, in_child)

#endif

#endif
