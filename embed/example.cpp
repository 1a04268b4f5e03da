// The library called from C++: what sm_tool writes for the bytes on standard input.
//
//     example audit|draw|evidence|decide
//     example accuse GENERAL
//
// The exit status is that of sm_tool, and so is the line of what failed.
#include "sm_embed.h"
#include <charconv>
#include <cstdint>
#include <cstdio>
#include <iostream>
#include <iterator>
#include <map>
#include <new>
#include <stdexcept>
#include <string>
#include <system_error>

namespace {

// An answer that frees itself.
class Answer {
  public:
    Answer() = default;
    Answer(const Answer &) = delete;
    Answer &operator=(const Answer &) = delete;
    ~Answer() { sm_answer_free(&held); }

    // Where a call puts its answer.
    sm_answer *at() { return &held; }

    // The text or line that is held.
    std::string text() {
        std::size_t count = 0;
        std::string room;
        while (sm_answer_text(&held, reinterpret_cast<std::uint8_t *>(&room[0]), room.size(), &count) == SM_LENGTH)
            room.resize(count);
        return room;
    }

  private:
    sm_answer held = {nullptr};
};

// The jobs that need no more than an input.
const std::map<std::string, decltype(&sm_audit)> jobs = {
    {"audit", sm_audit}, {"draw", sm_draw}, {"evidence", sm_evidence}, {"decide", sm_decide}};

// Does one job, which asks for nothing besides. Throws std::bad_alloc if memory is refused to the library.
std::uint32_t ask(const std::string &job, std::uint32_t general, const std::string &text, Answer &answer) {
    const auto *const input = reinterpret_cast<const std::uint8_t *>(text.data());
    const std::uint32_t status = job == "accuse" ? sm_accuse(general, input, text.size(), nullptr, answer.at())
                                                 : jobs.at(job)(input, text.size(), nullptr, answer.at());
    if (status == SM_MEMORY) throw std::bad_alloc();
    return status;
}

// The general whose number a word is, in decimal digits. Any other word is no argument.
std::uint32_t general_of(const std::string &word) {
    std::uint32_t number = 0;
    const auto read = std::from_chars(word.data(), word.data() + word.size(), number);
    if (read.ec != std::errc() || read.ptr != word.data() + word.size()) throw std::invalid_argument(word);
    return number;
}

// Says in a line on standard error what failed, and returns the exit status for it.
int failed(int status, const std::string &line) {
    std::cerr << line << '\n';
    return status;
}

} // namespace

int main(int words, char **word) try {
    const std::string job = words > 1 ? word[1] : "";
    const bool is_known = job == "accuse" ? words == 3 : words == 2 && jobs.count(job) == 1;
    if (!is_known) return failed(SM_MISUSE, "usage: example audit|draw|evidence|decide|accuse GENERAL");
    const std::uint32_t general = job == "accuse" ? general_of(word[2]) : 0;
    const std::string input{std::istreambuf_iterator<char>(std::cin), {}};
    // The streams of C++ read by those of C, which know why the input ended.
    if (std::ferror(stdin)) return failed(5, "read failed");
    Answer answer;
    const std::uint32_t status = ask(job, general, input, answer);
    if (status == SM_FAULT) return failed(SM_FAULT, answer.text());
    // Of a general that is none of the run's sm_tool has no evidence, which is a no.
    if (status == SM_NOBODY) return SM_NO;
    std::cout << answer.text() << std::flush;
    return std::cout ? static_cast<int>(status) : failed(5, "write failed");
} catch (const std::bad_alloc &) {
    return failed(SM_MEMORY, "memory");
} catch (const std::logic_error &) {
    return SM_MISUSE;
}
