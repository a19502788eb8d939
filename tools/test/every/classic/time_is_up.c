/* A frame is awaited for a second at most, as POSIX has it: the end is the time now and a second. Either the frame comes or the time
 * is up, at any moment; what is done with a frame that comes too late is the program's. The threads are those of C11. */
#include <ccan_every.h>
#include <stdio.h>
#include <threads.h>
#include <time.h>

static mtx_t lock;
static cnd_t came;
static int frames;

static int receive(void *unused)
{
    (void)unused;
    mtx_lock(&lock);
    frames++;
    cnd_signal(&came);
    mtx_unlock(&lock);
    return 7;
}

static const char *await(void)
{
    struct timespec end;
    timespec_get(&end, TIME_UTC);
    end.tv_sec++;
    mtx_lock(&lock);
    int code = thrd_success;
    while (!frames && code == thrd_success)
        code = cnd_timedwait(&came, &lock, &end);
    const char *what = frames ? code == thrd_timedout ? "a frame as the time was up" : "a frame" : "the time was up";
    mtx_unlock(&lock);
    return what;
}

int main(void)
{
    thrd_t thread;
    int result;
    ccan_stop_clocks();
    mtx_init(&lock, mtx_plain);
    cnd_init(&came);
    thrd_create(&thread, receive, NULL);
    const char *what = await();
    thrd_join(thread, &result);
    printf("%s, %d\n", what, result);
    return 0;
}
