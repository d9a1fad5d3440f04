// list [ENC [LIMIT]] < FILE: lists the tokens of a file, one a line, as `./run scan ENC LIMIT` does.
// An example of bogzhami.h in C++17. The exit status is 0; 1 if there is a fault; 2 for wrong words; 3 if reading, writing or a
// request for memory fails.
#include "listing.hh"

#include <cstdio>
#include <iterator>
#include <vector>

namespace {

// A scanner of an input, which has to outlive it. It is closed when it goes out of scope, and is not copied.
class Scanner {
public:
    Scanner(std::string_view input, std::uint32_t encoding, std::uint32_t key_limit) : input{input} {
        std::uint32_t status = bogzhami_open(&handle, bytes(), input.size(), encoding, key_limit);
        if (status == BOGZHAMI_NO_MEMORY)
            throw std::bad_alloc{};
        if (status != BOGZHAMI_DONE)
            throw std::invalid_argument{"no such encoding or key limit"};
    }
    ~Scanner() { bogzhami_close(&handle); }
    Scanner(const Scanner &) = delete;
    Scanner &operator=(const Scanner &) = delete;

    // Reads the next batch, and returns what bogzhami_next does. The room for texts grows to what a token needs.
    std::uint32_t next() {
        std::uint32_t status = read();
        if (status == BOGZHAMI_NO_ROOM) {
            texts.resize(answer.text_len);
            status = read();
        }
        return status;
    }

    // The batch that was read last, the fault after it, and texts of both.
    std::vector<bogzhami_token> tokens = std::vector<bogzhami_token>(256);
    std::vector<std::uint8_t> texts = std::vector<std::uint8_t>(1 << 14);
    bogzhami_answer answer{};

private:
    const std::uint8_t *bytes() const { return reinterpret_cast<const std::uint8_t *>(input.data()); }
    std::uint32_t read() {
        return bogzhami_next(&handle, bytes(), input.size(), tokens.data(), tokens.size(), texts.data(), texts.size(), &answer);
    }

    std::string_view input;
    bogzhami_handle handle = BOGZHAMI_CLOSED;
};

// Lists all tokens and the fault after them, and returns whether there is one.
bool list(std::string_view input, const Words &words) {
    Scanner scanner{input, words.encoding, words.key_limit};
    while (std::cout) {
        std::uint32_t status = scanner.next();
        for (std::uint64_t i = 0; i < scanner.answer.token_count; i++)
            list_token(scanner.tokens[i], scanner.texts.data());
        if (status == BOGZHAMI_FAULT)
            list_fault(scanner.answer, scanner.texts.data());
        if (status != BOGZHAMI_DONE)
            return status == BOGZHAMI_FAULT;
    }
    return false;
}

std::string read_all() {
    std::string input{std::istreambuf_iterator<char>{std::cin}, {}};
    if (std::ferror(stdin))
        throw std::system_error{errno, std::generic_category(), "standard input"};
    return input;
}

bool list_input(const Words &words) { return list(read_all(), words); }

} // namespace

int main(int argc, char **argv) { return run(argc, argv, "Lists the tokens of a file, one a line.", list_input); }
