/* A frame is awaited for ten milliseconds, as C++ has it, while another thread adds one. Either it came or the time was up; and
 * whether it came before the end is known only under the mutex. */
#include <ccan_every.h>
#include <chrono>
#include <condition_variable>
#include <cstdio>
#include <mutex>
#include <thread>

static std::mutex mutex;
static std::condition_variable came;
static int frames;

static void receive()
{
    std::lock_guard<std::mutex> held(mutex);
    frames++;
    came.notify_one();
}

int main()
{
    ccan_stop_clocks();
    std::thread receiver(receive);
    bool in_time;
    {
        std::unique_lock<std::mutex> held(mutex);
        auto end = std::chrono::steady_clock::now() + std::chrono::milliseconds(10);
        in_time = came.wait_until(held, end, [] { return frames > 0; });
    }
    receiver.join();
    std::printf("%s, %d\n", in_time ? "in time" : "the time was up", frames);
    return 0;
}
