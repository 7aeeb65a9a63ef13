/* Whether a test is built with ThreadSanitizer or AddressSanitizer, by gcc or by clang. */
#ifndef YAK_TESTS_SANITIZED_H
#define YAK_TESTS_SANITIZED_H

#ifdef __has_feature
#define CLANG_HAS(feature) __has_feature(feature)
#else
#define CLANG_HAS(feature) 0
#endif

#if defined __SANITIZE_THREAD__ || CLANG_HAS(thread_sanitizer)
#define HAS_THREAD_SANITIZER 1
#else
#define HAS_THREAD_SANITIZER 0
#endif

#if defined __SANITIZE_ADDRESS__ || CLANG_HAS(address_sanitizer)
#define HAS_ADDRESS_SANITIZER 1
#else
#define HAS_ADDRESS_SANITIZER 0
#endif

#endif
