// journal: the least that a journaled change of many files takes, for bench/journal.
//
// usage: journal LIST NEW, in the folder whose files are to change
//
// LIST has their paths, one a line, in the order of their bytes, the history's among them; below NEW each of them stands
// with its new bytes. It reads the new bytes, writes `.rewrite/journal`, syncs it, writes `.rewrite/gate`, syncs it,
// writes each file in place and syncs it, 64 of them together, removes the gate, and syncs its folder. The journal has
// the form of docs/journal.md and its size; the digest in its last line is zeros, since none is computed here. It looks
// at nothing else: no listing, no recipe, no check of what it writes.
#define _GNU_SOURCE
#include <fcntl.h>
#include <stdio.h>
#include <stdlib.h>
#include <string.h>
#include <sys/stat.h>
#include <unistd.h>

enum { MOST_OPEN = 64 };

struct file {
    char *path;
    char *bytes;
    size_t len;
};

static void must(int holds, const char *what) {
    if (!holds) {
        perror(what);
        exit(1);
    }
}

static char *read_all(const char *path, size_t *len) {
    int at = open(path, O_RDONLY);
    must(at >= 0, path);
    struct stat found;
    must(fstat(at, &found) == 0, path);
    char *bytes = malloc((size_t)found.st_size + 1);
    must(bytes != NULL, "memory");
    size_t filled = 0;
    while (filled < (size_t)found.st_size) {
        ssize_t more = read(at, bytes + filled, (size_t)found.st_size - filled);
        must(more > 0, path);
        filled += (size_t)more;
    }
    close(at);
    bytes[filled] = '\0';
    *len = filled;
    return bytes;
}

static void write_all(int at, const char *bytes, size_t len) {
    while (len > 0) {
        ssize_t done = write(at, bytes, len);
        must(done > 0, "write");
        bytes += done;
        len -= (size_t)done;
    }
}

// Writes a file in the place of what stands there, and leaves it open.
static int put(const char *path, const char *bytes, size_t len) {
    int at = open(path, O_WRONLY | O_CREAT, 0666);
    must(at >= 0, path);
    write_all(at, bytes, len);
    off_t end = lseek(at, 0, SEEK_END);
    must(end >= 0 && (end == (off_t)len || ftruncate(at, (off_t)len) == 0), path);
    return at;
}

static void sync_and_close(int at) {
    must(fdatasync(at) == 0, "fdatasync");
    close(at);
}

static void sync_folder(const char *path) {
    int at = open(path, O_RDONLY | O_DIRECTORY);
    must(at >= 0, path);
    must(fsync(at) == 0, path);
    close(at);
}

static char *journal_of(struct file *files, size_t count, size_t *len) {
    size_t room = 256;
    for (size_t k = 0; k < count; k++) {
        room += files[k].len + strlen(files[k].path) + 32;
    }
    char *text = malloc(room);
    must(text != NULL, "memory");
    char *end = text + sprintf(text, "rewrite-journal 1\n%zu\n", count);
    for (size_t k = 0; k < count; k++) {
        end += sprintf(end, "put %zu %s\n", files[k].len, files[k].path);
        memcpy(end, files[k].bytes, files[k].len);
        end += files[k].len;
        *end++ = '\n';
    }
    end += sprintf(end, "sha256 %064d\n", 0);
    *len = (size_t)(end - text);
    return text;
}

static struct file *files_of(char *list, const char *folder, size_t *count) {
    size_t lines = 0;
    for (char *at = list; *at != '\0'; at++) {
        lines += *at == '\n';
    }
    struct file *files = malloc((lines + 1) * sizeof *files);
    must(files != NULL, "memory");
    *count = 0;
    for (char *path = strtok(list, "\n"); path != NULL; path = strtok(NULL, "\n")) {
        char full[4096];
        must(snprintf(full, sizeof full, "%s/%s", folder, path) < (int)sizeof full, path);
        files[*count].path = path;
        files[*count].bytes = read_all(full, &files[*count].len);
        *count += 1;
    }
    return files;
}

int main(int argc, char **argv) {
    must(argc == 3, "usage: journal LIST NEW");
    size_t list_len, count, len;
    struct file *files = files_of(read_all(argv[1], &list_len), argv[2], &count);
    char *journal = journal_of(files, count, &len);
    mkdir(".rewrite", 0777);
    sync_and_close(put(".rewrite/journal", journal, len));
    sync_folder(".rewrite");
    sync_folder(".");
    sync_and_close(put(".rewrite/gate", "1", 1));
    sync_folder(".rewrite");
    int open_files[MOST_OPEN];
    int waiting = 0;
    for (size_t k = 0; k < count; k++) {
        open_files[waiting++] = put(files[k].path, files[k].bytes, files[k].len);
        if (waiting == MOST_OPEN || k + 1 == count) {
            for (int n = 0; n < waiting; n++) {
                sync_and_close(open_files[n]);
            }
            waiting = 0;
        }
    }
    must(unlink(".rewrite/gate") == 0, "gate");
    sync_folder(".rewrite");
    return 0;
}
