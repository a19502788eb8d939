/* Which sanitizer these sources are compiled for. */
#ifndef CCAN_CHECKED_SANITIZER_H
#define CCAN_CHECKED_SANITIZER_H
#if defined(__has_feature)
#if __has_feature(thread_sanitizer)
#define FOR_THREAD_SANITIZER 1
#endif
#if __has_feature(address_sanitizer)
#define FOR_ADDRESS_SANITIZER 1
#endif
#endif
#if defined(__SANITIZE_THREAD__)
#define FOR_THREAD_SANITIZER 1
#endif
#if defined(__SANITIZE_ADDRESS__)
#define FOR_ADDRESS_SANITIZER 1
#endif
#ifndef FOR_THREAD_SANITIZER
#define FOR_THREAD_SANITIZER 0
#endif
#ifndef FOR_ADDRESS_SANITIZER
#define FOR_ADDRESS_SANITIZER 0
#endif
#endif
