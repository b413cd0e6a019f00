/* Replays the inputs of a folder, without a fuzzer: each as it is, and with every buffer at its other end. */
#include <dirent.h>
#include <stdint.h>
#include <stdio.h>
#include <string.h>
#include <sys/wait.h>
#include <unistd.h>

enum { LONGEST = 1 << 18 };

int LLVMFuzzerTestOneInput(const uint8_t *data, size_t size);

/* In a child, so that a touched guard page fails that input alone. */
static int holds(const uint8_t *data, size_t size)
{
    int status = 1;
    pid_t child = fork();
    if (child == 0) {
        LLVMFuzzerTestOneInput(data, size);
        _exit(0);
    }
    return child > 0 && waitpid(child, &status, 0) == child && status == 0;
}

static int replay(const char *folder, const char *name)
{
    static uint8_t data[LONGEST];
    char path[4096];
    snprintf(path, sizeof path, "%s/%s", folder, name);
    FILE *file = fopen(path, "rb");
    if (file == NULL) return 0;
    size_t size = fread(data, 1, LONGEST, file);
    fclose(file);
    int first = holds(data, size);
    data[1] ^= 0x0f;
    return holds(data, size) && first;
}

int main(int argc, char **argv)
{
    int inputs = 0, failed = 0;
    DIR *folder = argc == 2 ? opendir(argv[1]) : NULL;
    if (folder == NULL) {
        fprintf(stderr, "usage: replay FOLDER\n");
        return 2;
    }
    for (struct dirent *entry; (entry = readdir(folder)) != NULL;) {
        if (entry->d_name[0] == '.') continue;
        inputs++;
        if (replay(argv[1], entry->d_name)) continue;
        failed++;
        printf("fuzz: %s: fails\n", entry->d_name);
    }
    closedir(folder);
    printf("fuzz: %d inputs replayed, %d failed\n", inputs, failed);
    return inputs == 0 || failed != 0;
}
