// What the examples list.cc and pieces.cc share: the lines of tokens and of a fault, the words of the command, and what is said if
// something fails.
#ifndef LISTING_HH
#define LISTING_HH

#include "bogzhami.h"

#include <algorithm>
#include <array>
#include <cerrno>
#include <charconv>
#include <cstdint>
#include <getopt.h>
#include <iostream>
#include <new>
#include <stdexcept>
#include <string>
#include <string_view>
#include <system_error>

inline std::ostream &operator<<(std::ostream &out, const bogzhami_mark &mark) {
    return out << ' ' << mark.index << ':' << mark.line << ':' << mark.column;
}

inline std::string hex(std::string_view text) {
    static const char digits[] = "0123456789abcdef";
    std::string made{text.empty() ? " -" : " "};
    for (unsigned char byte : text)
        made += {digits[byte >> 4], digits[byte & 15]};
    return made;
}

inline std::string_view text_of(const std::uint8_t *texts, std::uint64_t at, std::uint64_t len) {
    return {reinterpret_cast<const char *>(texts) + at, static_cast<std::size_t>(len)};
}

// Prints the line of a token.
inline void list_token(const bogzhami_token &token, const std::uint8_t *texts) {
    std::string_view first = text_of(texts, token.text_at, token.first_len);
    std::string_view second = text_of(texts, token.text_at + token.first_len, token.second_len);
    std::cout << bogzhami_token_name(token.token_type) << token.start_mark << token.end_mark;
    switch (token.token_type) {
    case BOGZHAMI_STREAM_START_TOKEN:
        std::cout << ' ' << bogzhami_encoding_name(token.detail);
        break;
    case BOGZHAMI_VERSION_DIRECTIVE_TOKEN:
        std::cout << ' ' << token.major << ' ' << token.minor;
        break;
    case BOGZHAMI_TAG_DIRECTIVE_TOKEN:
    case BOGZHAMI_TAG_TOKEN:
        std::cout << hex(first) << hex(second);
        break;
    case BOGZHAMI_ALIAS_TOKEN:
    case BOGZHAMI_ANCHOR_TOKEN:
        std::cout << hex(first);
        break;
    case BOGZHAMI_SCALAR_TOKEN:
        std::cout << ' ' << bogzhami_style_name(token.detail) << hex(first);
        break;
    }
    std::cout << '\n';
}

// Prints the line of a fault.
inline void list_fault(const bogzhami_answer &answer, const std::uint8_t *texts) {
    std::string_view problem = text_of(texts, answer.text_len, answer.problem_len);
    std::string_view context = text_of(texts, answer.text_len + answer.problem_len, answer.context_len);
    switch (answer.error) {
    case BOGZHAMI_READER_ERROR:
        std::cout << "FAULT reader " << answer.problem_offset << ' ' << answer.problem_value << ' ' << problem << '\n';
        break;
    case BOGZHAMI_SCANNER_ERROR:
        std::cout << "FAULT scanner" << answer.context_mark << answer.problem_mark << ' '
                  << (context.empty() ? "-" : context) << "; " << problem << '\n';
        break;
    default:
        std::cout << "FAULT memory\n";
    }
}

inline constexpr std::array<std::string_view, 4> settings{"any", "utf8", "utf16le", "utf16be"};
inline constexpr std::string_view help =
    "  ENC            any, utf8, utf16le or utf16be; any without it\n"
    "  LIMIT          the key limit, 1 to 65536; 1024 without it\n"
    "  -h, --help     print this\n"
    "      --version  print the version\n\n"
    "The exit status is 0; 1 if there is a fault; 2 for wrong words; 3 if reading, writing or a request for memory fails.\n";

// The words of the command. Wrong ones are thrown as what is wrong with them, which is empty if getopt_long has said it.
struct Words {
    std::uint32_t encoding = BOGZHAMI_ANY_ENCODING;
    std::uint32_t key_limit = 1024;
    int option; // the option that comes first, or -1

    Words(int argc, char **argv) : option{option_of(argc, argv)} {
        if (option != -1)
            return;
        const char *const *words = argv + optind;
        if (optind < argc)
            encoding = encoding_of(words[0]);
        if (optind + 1 < argc)
            key_limit = limit_of(words[1]);
        if (optind + 2 < argc)
            throw std::invalid_argument{"there is no use for '" + std::string{words[2]} + "'"};
    }

    static int option_of(int argc, char **argv) {
        static const ::option options[] = {{"help", no_argument, nullptr, 'h'}, {"version", no_argument, nullptr, 'v'}, {}};
        int found = getopt_long(argc, argv, "h", options, nullptr);
        if (found == '?')
            throw std::invalid_argument{""};
        return found;
    }

    static std::uint32_t encoding_of(std::string_view word) {
        auto found = std::find(settings.begin(), settings.end(), word);
        if (found == settings.end())
            throw std::invalid_argument{"there is no encoding '" + std::string{word} + "'"};
        return static_cast<std::uint32_t>(found - settings.begin());
    }

    static std::uint32_t limit_of(std::string_view word) {
        std::uint32_t limit = 0;
        auto [end, error] = std::from_chars(word.data(), word.data() + word.size(), limit);
        if (error != std::errc{} || end != word.data() + word.size() || limit < 1 || limit > 65536)
            throw std::invalid_argument{"there is no key limit '" + std::string{word} + "'"};
        return limit;
    }
};

// Sees that all is written.
inline void flush() {
    if (!std::cout.flush())
        throw std::system_error{errno, std::generic_category(), "standard output"};
}

// What the program was called by.
inline std::string program = "bogzhami";

inline int fail(const char *what) {
    std::cerr << program << ": " << what << '\n';
    return 3;
}

inline int refuse_words(std::string_view what) {
    if (!what.empty())
        std::cerr << program << ": " << what << '\n';
    std::cerr << "usage: " << program << " [any|utf8|utf16le|utf16be [LIMIT]] < FILE    (LIMIT is 1 to 65536)\n";
    return 2;
}

// Does what the words say, and returns whether there is a fault. What the program does is said by `purpose`, and done by `list`.
inline bool obey(const Words &words, std::string_view purpose, bool (*list)(const Words &)) {
    if (words.option == 'h')
        std::cout << "usage: " << program << " [ENC [LIMIT]] < FILE\n\n" << purpose << "\n\n" << help;
    else if (words.option == 'v')
        std::cout << program << " (Bogzhami) " << bogzhami_version() << '\n';
    else
        return list(words);
    return false;
}

// What `main` does: returns the exit status.
inline int run(int argc, char **argv, std::string_view purpose, bool (*list)(const Words &)) try {
    if (argc > 0) {
        program = std::string_view{argv[0]}.substr(std::string_view{argv[0]}.rfind('/') + 1);
        argv[0] = program.data(); // getopt_long names it
    }
    bool has_fault = obey(Words{argc, argv}, purpose, list);
    flush();
    return has_fault;
} catch (const std::invalid_argument &error) {
    return refuse_words(error.what());
} catch (const std::system_error &error) {
    return error.code() == std::errc::broken_pipe ? 3 : fail(error.what());
} catch (const std::bad_alloc &) {
    return fail("out of memory");
}

#endif
