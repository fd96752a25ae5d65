/* How much stack a call uses, and how much of a workspace. */
#include <pthread.h>
#include <signal.h>
#include <stddef.h>
#include <stdint.h>
#include <stdlib.h>
#include <string.h>
#include <sys/time.h>

#define STACK ((size_t)1 << 20)
#define PAINT 0xA5

struct call {
    void (*function)(void *);
    void *with;
};

static void *make_call(void *call) {
    struct call *it = call;
    it->function(it->with);
    return NULL;
}

/* Runs the call on a painted stack and answers how far down the paint is gone;
 * the thread's own share is in it. 0 where no thread can be had. */
size_t stack_used(void (*function)(void *), void *with) {
    struct call call = {function, with};
    unsigned char *stack;
    pthread_attr_t attributes;
    pthread_t thread;
    size_t left = 0;
    if (posix_memalign((void **)&stack, 4096, STACK) != 0) return 0;
    memset(stack, PAINT, STACK);
    pthread_attr_init(&attributes);
    pthread_attr_setstack(&attributes, stack, STACK);
    if (pthread_create(&thread, &attributes, make_call, &call) != 0) {
        free(stack);
        return 0;
    }
    pthread_join(thread, NULL);
    while (left < STACK && stack[left] == PAINT) left++;
    free(stack);
    return STACK - left;
}

static const volatile uint16_t *watched;
static size_t watched_len;
static uint16_t rubbish;
static unsigned char *used;

/* A place in use holds neither the rubbish from before nor the zero from after. */
static void look(int signal) {
    (void)signal;
    for (size_t place = 0; place < watched_len; place++) {
        uint16_t value = watched[place];
        if (value != 0 && value != rubbish) used[place] = 1;
    }
}

static void every(int microseconds) {
    struct itimerval timer = {{0, microseconds}, {0, microseconds}};
    setitimer(ITIMER_REAL, &timer, NULL);
}

/* From now on looks again and again which places are in use: marks them in
 * `marks`, which has a byte for each place. */
void watch(const uint16_t *places, size_t length, uint16_t filled_with, unsigned char *marks) {
    struct sigaction action;
    memset(&action, 0, sizeof action);
    action.sa_handler = look;
    action.sa_flags = SA_RESTART;
    watched = places;
    watched_len = length;
    rubbish = filled_with;
    used = marks;
    sigaction(SIGALRM, &action, NULL);
    every(200);
}

void unwatch(void) {
    every(0);
    signal(SIGALRM, SIG_IGN);
}
