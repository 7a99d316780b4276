/*
 * A program leaves no octet of an identity or address in its memory: it is
 * stopped where it ends, and all its writable memory is looked through.
 *
 *   ends [PROGRAM [WORD...]]
 *
 * Without words, the three programs of target/bin. The program's input are
 * frames with secrets in them, as standard input and, where a word is "@", as a
 * file.
 */
#ifndef _GNU_SOURCE /* g++ has it */
#define _GNU_SOURCE
#endif
#include <fcntl.h>
#include <sys/ptrace.h>
#include <sys/wait.h>
#include <unistd.h>

#include "expect.h"
#include "ostrogosz.h"
#include "secret.h"

#define MOST_WORDS 8

static uint8_t frame[OSTROGOSZ_UCP_LONGEST_FRAME];

static int put(int file, struct ostrogosz_written written)
{
    return written.refusal == 0 &&
           write(file, frame, written.length) == (ssize_t)written.length;
}

/* Frames of the UCP line with a secret in each. */
static int put_ucp(int file)
{
    static struct ostrogosz_ucp_report report;
    static struct ostrogosz_ucp_control control;
    static struct ostrogosz_ucp_initialization initialization;
    static struct ostrogosz_ucp_request request = {45};

    put_address(&report.address);
    put_identity(report.callsign);
    put_identity(control.identity);
    put_address(&initialization.address);
    put_identity(initialization.callsign);
    return put(file, ostrogosz_ucp_send_ownship(&report, frame)) &&
           put(file, ostrogosz_ucp_send_traffic(&report, frame)) &&
           put(file, ostrogosz_ucp_send_initialization(&initialization,
                                                       frame)) &&
           put(file, ostrogosz_ucp_send_control(&control, frame)) &&
           put(file, ostrogosz_ucp_send_request(&request, frame)) &&
           /* An open stretch at the end. */
           write(file, frame, 3) == 3;
}

/* MAVLink frames with a secret in each. */
static int put_mavlink(int file)
{
    static struct ostrogosz_mavlink_header header;
    static struct ostrogosz_mavlink_static static_data;
    static struct ostrogosz_mavlink_traffic traffic;

    put_address(&static_data.icao);
    put_identity(static_data.callsign);
    put_address(&traffic.icao_address);
    put_identity(traffic.callsign);
    return put(file, ostrogosz_mavlink_write_traffic(&traffic, &header, frame,
                                                     sizeof frame)) &&
           put(file, ostrogosz_mavlink_write_static(&static_data, &header,
                                                    frame, sizeof frame));
}

/* The program, with the input's file for each "@". */
static void run(char *const words[], const char *input)
{
    static char *arguments[MOST_WORDS + 1];
    static char name[64];
    int out = open("/dev/null", O_WRONLY);
    int in = open(input, O_RDONLY);
    size_t i;
    strncpy(name, input, sizeof name - 1);
    for (i = 0; i < MOST_WORDS && words[i] != NULL; i++) {
        arguments[i] = strcmp(words[i], "@") == 0 ? name : words[i];
    }
    if (in < 0 || out < 0 || dup2(in, 0) < 0 || dup2(out, 1) < 0 ||
        ptrace(PTRACE_TRACEME, 0, NULL, NULL) != 0) {
        _exit(126);
    }
    execv(arguments[0], arguments);
    _exit(127);
}

/* What is left in another process's memory. */
static struct traces left_in(pid_t process)
{
    static struct region regions[256];
    static uint8_t block[1 << 16];
    struct traces found = {0, 0};
    char path[64];
    size_t count, i;
    int memory;
    snprintf(path, sizeof path, "/proc/%d/maps", (int)process);
    count = writable_regions(path, regions, 256);
    snprintf(path, sizeof path, "/proc/%d/mem", (int)process);
    memory = open(path, O_RDONLY);
    EXPECT(memory >= 0 && count > 0 && count < 256);
    for (i = 0; i < count; i++) {
        uintptr_t at = regions[i].start;
        ssize_t got = 1;
        /* Blocks overlap, so that no text is cut in two. */
        while (at < regions[i].end && got > 0) {
            size_t most = regions[i].end - at < sizeof block
                              ? regions[i].end - at
                              : sizeof block;
            got = pread(memory, block, most, (off_t)at);
            if (got > 0) {
                count_traces(block, (size_t)got, &found);
            }
            at += sizeof block - IDENTITY;
        }
    }
    close(memory);
    return found;
}

/* Runs the program to where it ends; -1 where it did not end well. */
static int left_by(char *const words[], const char *input, struct traces *found)
{
    pid_t process = fork();
    int status = 0, looked = 0;
    if (process == 0) {
        run(words, input);
    }
    if (waitpid(process, &status, 0) != process || !WIFSTOPPED(status) ||
        ptrace(PTRACE_SETOPTIONS, process, NULL,
               (void *)(uintptr_t)PTRACE_O_TRACEEXIT) != 0) {
        return -1;
    }
    while (ptrace(PTRACE_CONT, process, NULL, NULL) == 0 &&
           waitpid(process, &status, 0) == process && WIFSTOPPED(status)) {
        if (status >> 8 == (SIGTRAP | (PTRACE_EVENT_EXIT << 8))) {
            *found = left_in(process);
            looked = 1;
        }
    }
    return looked && WIFEXITED(status) && WEXITSTATUS(status) == 0 ? 0 : -1;
}

/* With each secret. Three octets may stand somewhere by chance, so an address
 * counts only where both are found. */
static void try_program(char *const words[], int (*fill)(int), int careful)
{
    struct traces found[2] = {{0, 0}, {0, 0}};
    int clean;
    for (secret = 0; secret < 2; secret++) {
        char path[] = "/tmp/ends.XXXXXX";
        int file = mkstemp(path);
        EXPECT(file >= 0 && fill(file) && close(file) == 0);
        EXPECT(left_by(words, path, &found[secret]) == 0);
        unlink(path);
    }
    clean = found[0].identities == 0 && found[1].identities == 0 &&
            (found[0].addresses == 0 || found[1].addresses == 0);
    if (careful && !clean) {
        printf("%s leaves %u and %u identities, %u and %u addresses\n",
               words[0], found[0].identities, found[1].identities,
               found[0].addresses, found[1].addresses);
    }
    EXPECT(clean == careful);
}

int main(int argc, char **argv)
{
    static char lister[] = "target/bin/line_lister",
                explainer[] = "target/bin/line_explainer",
                mavlink[] = "target/bin/mavlink_explainer", dd[] = "/bin/dd",
                quietly[] = "status=none";
    char *const lists[] = {lister, NULL}, *const explains[] = {explainer, NULL};
    char *const of_mavlink[] = {mavlink, NULL};
    char *const copies[] = {dd, quietly, NULL};
    if (argc > 1) {
        try_program(argv + 1, put_ucp, 1);
        return finish();
    }
    try_program(lists, put_ucp, 1);
    try_program(explains, put_ucp, 1);
    try_program(of_mavlink, put_mavlink, 1);
    /* What a program that clears nothing leaves is found. */
    try_program(copies, put_ucp, 0);
    return finish();
}
