// pieces [ENC [LIMIT]] < FILE: lists the tokens of a pipe, one a line, each as soon as no more bytes can change it.
// An example of bogzhami_next_piece in C++17. The words, the lines and the exit statuses are those of list.cc.
#include "listing.hh"

#include <vector>

namespace {

// A scanner of a stream, which has to outlive it, and of which it keeps all that came. It is closed when it goes out of scope, and
// is not copied.
class PieceScanner {
public:
    PieceScanner(std::istream &input, std::uint32_t encoding, std::uint32_t key_limit) : input{input} {
        std::uint32_t status = bogzhami_open_pieces(&handle, encoding, key_limit);
        if (status == BOGZHAMI_NO_MEMORY)
            throw std::bad_alloc{};
        if (status != BOGZHAMI_DONE)
            throw std::invalid_argument{"no such encoding or key limit"};
    }
    ~PieceScanner() { bogzhami_close(&handle); }
    PieceScanner(const PieceScanner &) = delete;
    PieceScanner &operator=(const PieceScanner &) = delete;

    // Reads the next batch of what is settled, and returns what bogzhami_next_piece does. The room for texts grows to what a token
    // needs.
    std::uint32_t next() {
        std::uint32_t status = scan();
        if (status == BOGZHAMI_NO_ROOM) {
            texts.resize(answer.text_len);
            status = scan();
        }
        if (answer.token_count)
            given = tokens[answer.token_count - 1].end_mark.index;
        return status;
    }

    // Waits for more of the stream, until the next call is worth its time. What follows the last token that was given is read by
    // the scanner again, so the longer that is, the more has to come before: a quarter of it. If it is short, anything is enough.
    // If the stream has failed, what came before may still be settled, so that is thrown when it is waited for once more.
    void wait(bool wants_all) {
        if (error)
            throw std::system_error{error, std::generic_category(), "standard input"};
        std::size_t len = window.size(), again = len - given, enough = again < short_part ? 1 : again / 4;
        do
            take();
        while (!is_last && !error && (wants_all || window.size() - len < enough));
    }

    // The batch that was read last, the fault after it, and texts of both.
    std::vector<bogzhami_token> tokens = std::vector<bogzhami_token>(256);
    std::vector<std::uint8_t> texts = std::vector<std::uint8_t>(1 << 14);
    bogzhami_answer answer{};

private:
    static constexpr std::size_t short_part = 1 << 20;

    std::uint32_t scan() {
        std::uint64_t needed_from; // the window has all bytes that came, and so those that are needed
        return bogzhami_next_piece(&handle, 0, window.data(), window.size(), is_last, tokens.data(), tokens.size(), texts.data(),
                                   texts.size(), &answer, &needed_from);
    }

    // Takes what the stream has, and waits if it has nothing.
    void take() {
        errno = EIO; // unless the stream says another reason
        if (input.peek() == std::istream::traits_type::eof()) {
            error = input.bad() ? errno : 0;
            is_last = !input.bad();
            return;
        }
        std::size_t len = window.size(), count = static_cast<std::size_t>(input.rdbuf()->in_avail());
        window.resize(len + count);
        input.read(reinterpret_cast<char *>(window.data()) + len, static_cast<std::streamsize>(count));
    }

    std::istream &input;
    bogzhami_handle handle = BOGZHAMI_CLOSED;
    std::vector<std::uint8_t> window; // all bytes that came
    std::size_t given = 0;            // how many of them are in front of the end of the last token that was given
    bool is_last = false;             // whether no more will come
    int error = 0;                    // the number of the error that ended the stream, or 0
};

// Lists all tokens and the fault after them, and returns whether there is one. What is listed is written before more is waited for.
bool list(const Words &words) {
    std::ios::sync_with_stdio(false); // else std::cin does not know how many bytes are there
    PieceScanner scanner{std::cin, words.encoding, words.key_limit};
    while (std::cout) {
        std::uint32_t status = scanner.next();
        for (std::uint64_t i = 0; i < scanner.answer.token_count; i++)
            list_token(scanner.tokens[i], scanner.texts.data());
        if (status == BOGZHAMI_FAULT)
            list_fault(scanner.answer, scanner.texts.data());
        if (status == BOGZHAMI_FAULT || status == BOGZHAMI_OVER)
            return status == BOGZHAMI_FAULT;
        if (status != BOGZHAMI_DONE) {
            flush();
            scanner.wait(status == BOGZHAMI_WHOLE);
        }
    }
    return false;
}

} // namespace

int main(int argc, char **argv) {
    return run(argc, argv, "Lists the tokens of a pipe, one a line, as soon as each has come.", list);
}
