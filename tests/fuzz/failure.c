#include "failure.h"

#include <fcntl.h>
#include <inttypes.h>
#include <signal.h>
#include <stdarg.h>
#include <stdio.h>
#include <stdlib.h>
#include <string.h>
#include <sys/time.h>
#include <unistd.h>

/* Of processor time, so that a machine that is busy or halted makes no difference. */
#define CASE_SECONDS 60

static uint64_t tried_seed, tried_number;

void trying(uint64_t seed, uint64_t number) {
    static int file = -1;
    char text[48];
    tried_seed = seed;
    tried_number = number;
    setitimer(ITIMER_PROF, &(struct itimerval){.it_value = {.tv_sec = CASE_SECONDS}}, NULL);
    int len = snprintf(text, sizeof text, "%-20" PRIu64 " %-20" PRIu64 "\n", seed, number);
    if (file < 0) {
        file = open("case", O_WRONLY | O_CREAT | O_TRUNC | O_CLOEXEC, 0666);
    }
    if (pwrite(file, text, (size_t)len, 0) != len) {
        fail("the case can't be noted");
    }
}

_Noreturn void fail(const char *format, ...) {
    va_list arguments;
    printf("seed %" PRIu64 ", case %" PRIu64 ": ", tried_seed, tried_number);
    va_start(arguments, format);
    vprintf(format, arguments);
    va_end(arguments);
    printf("\n");
    fflush(stdout);
    _exit(1);
}

static void on_signal(int number) {
    fail("signal %d, %s", number, strsignal(number));
}

void catch_faults(void) {
    static const int SIGNALS[] = {SIGSEGV, SIGBUS, SIGILL, SIGFPE, SIGABRT, SIGPROF};
    static char stack[1 << 16];
    sigaltstack(&(stack_t){.ss_sp = stack, .ss_size = sizeof stack}, NULL);
    struct sigaction action = {.sa_handler = on_signal, .sa_flags = SA_ONSTACK};
    for (size_t i = 0; i < sizeof SIGNALS / sizeof *SIGNALS; i++) {
        sigaction(SIGNALS[i], &action, NULL);
    }
    signal(SIGPIPE, SIG_IGN);
}
