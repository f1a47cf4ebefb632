// A session in a C++ program: runs a block of examples/token, and compares with `rvstm seq`; is refused another one; and reads a
// key and the session's counts.
//
// usage: embed RVSTM
//
// RVSTM is the built program. Started in examples/token. embed.expect has what it prints.
#include <cstdio>
#include <fstream>
#include <iostream>
#include <iterator>
#include <memory>
#include <stdexcept>
#include <string>

#include "rvstm.h"

// A request that is refused, or for which memory ran out.
struct Refusal : std::runtime_error {
    using std::runtime_error::runtime_error;
};

// A session of the library, which is closed when it goes. It is not copied.
class Session {
public:
    Session()
    {
        if (rvstm_open(&session) != RVSTM_DONE) throw std::bad_alloc();
    }

    ~Session() { rvstm_close(&session); }
    Session(const Session &) = delete;
    Session &operator=(const Session &) = delete;

    // Hands in a program, and returns its name.
    std::string program(const std::string &file)
    {
        std::string line = answer(rvstm_program(&session, bytes(file), file.size()));
        return line.substr(0, line.size() - 1);
    }

    std::string frame(const std::string &block) { return answer(rvstm_frame(&session, bytes(block), block.size())); }
    std::string get(const std::string &key) { return answer(rvstm_get(&session, bytes(key), key.size())); }
    std::string dump() { return answer(rvstm_dump(&session)); }
    std::string state() { return answer(rvstm_state(&session)); }

private:
    rvstm_session session = {};

    static const uint8_t *bytes(const std::string &text) { return reinterpret_cast<const uint8_t *>(text.data()); }

    // The answer to the last request. Throws where that is not done.
    std::string answer(uint32_t status)
    {
        if (status == RVSTM_REFUSED || status == RVSTM_FAILED) throw Refusal(reason());
        if (status != RVSTM_DONE) throw std::logic_error("the session is closed");
        std::string copy(rvstm_answer_length(&session), '\0');
        rvstm_answer(&session, reinterpret_cast<uint8_t *>(&copy[0]), copy.size());
        return copy;
    }

    // Area, name and number of what the last request was answered.
    std::string reason()
    {
        rvstm_refusal_parts parts;
        rvstm_refusal(&session, &parts);
        const char *area = reinterpret_cast<const char *>(parts.area), *name = reinterpret_cast<const char *>(parts.name);
        return std::string(area) + " " + name + " " + std::to_string(parts.number);
    }
};

static std::string read_file(const std::string &path)
{
    std::ifstream file(path, std::ios::binary);
    if (!file) throw std::runtime_error(path + " can't be read");
    return {std::istreambuf_iterator<char>(file), {}};
}

// What a command prints.
static std::string output_of(const std::string &command)
{
    std::unique_ptr<FILE, int (*)(FILE *)> pipe(popen(command.c_str(), "r"), pclose);
    std::string said;
    for (int byte; pipe && (byte = getc(pipe.get())) != EOF;) said += static_cast<char>(byte);
    return said;
}

// What stands behind the first two lines.
static std::string behind_head(const std::string &dump)
{
    return dump.substr(dump.find('\n', dump.find('\n') + 1) + 1);
}

static void run(const std::string &rvstm)
{
    static const std::string path = "token.elf", end = "end\n";
    Session session;
    const std::string block = read_file("token.block"), name = session.program(read_file(path));
    std::string named = block;
    const std::string frame = session.frame(named.replace(named.find(path), path.size(), name));
    // The result of `seq` has the storage before its line `end`; a dump has two lines before it.
    const std::string receipts = frame.substr(0, frame.size() - end.size()), in_order = output_of("'" + rvstm + "' seq token.block");
    if (receipts + behind_head(session.dump()) + end != in_order) throw std::runtime_error("the session and seq differ");
    std::cout << in_order.size() << " bytes, as seq\n";
    try {
        session.frame(block);  // it has a path, and no name, and a session opens no file
    } catch (const Refusal &refusal) {
        std::cout << "refused " << refusal.what() << "\n";
    }
    std::cout << session.get("61636374616c6963650000000000000000000000000000000000000000000014") << session.state();
}

int main(int count, char **words)
{
    try {
        if (count != 2) throw std::runtime_error("usage: embed RVSTM");
        if (rvstm_version() != RVSTM_VERSION) throw std::runtime_error("the library has another version than its header");
        run(words[1]);
    } catch (const std::exception &error) {
        std::cerr << "embed: " << error.what() << "\n";
        return 1;
    }
}
