/* How deep into the stack a function goes: the bytes of a painted stack that a thread leaves changed, without those of a thread that does nothing. */
#include <pthread.h>
#include <stdio.h>
#include <stdlib.h>
#include <string.h>
#include <sys/mman.h>

static void *nothing(void *who)
{
    return who;
}

static size_t touched(void *(*call)(void *))
{
    enum { STACK = 1 << 20, PAINT = 0xa5 };
    uint8_t *stack = mmap(NULL, STACK, PROT_READ | PROT_WRITE, MAP_PRIVATE | MAP_ANONYMOUS, -1, 0);
    pthread_attr_t attr;
    pthread_t thread;
    if (stack == MAP_FAILED) {
        perror("a stack to paint");
        exit(1);
    }
    memset(stack, PAINT, STACK);
    if (pthread_attr_init(&attr) || pthread_attr_setstack(&attr, stack, STACK) || pthread_create(&thread, &attr, call, NULL) || pthread_join(thread, NULL)) {
        puts("no thread on a painted stack");
        exit(1);
    }
    size_t low = 0;
    while (low < STACK && stack[low] == PAINT)
        low++;
    munmap(stack, STACK);
    return STACK - low;
}

static size_t depth(void *(*call)(void *))
{
    return touched(call) - touched(nothing);
}
