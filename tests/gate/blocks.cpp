// Blocks by rvstm.hpp: owners move, faults and what a state throws are exceptions, a block that was left goes on. The sanitizers look
// for leaks.
//
// usage: blocks COUNTER, the program of examples/counter. Ends with status 1, and what is wrong, at the first thing that is wrong.
#include <cstdio>
#include <fstream>
#include <iterator>
#include <map>

#include "rvstm.hpp"

using namespace rvstm;

static void need(bool holds, const char *what)
{
    if (!holds) throw std::logic_error(what);
}

template <class Call>
static std::uint32_t status_of(Call call)
{
    try {
        call();
    } catch (const Fault &fault) {
        return fault.status();
    }
    return RVSTM_DONE;
}

struct Ledger {
    std::map<Key, Bytes> values;

    std::optional<Bytes> get(const Key &key) const
    {
        const auto found = values.find(key);
        return found == values.end() ? std::nullopt : std::optional<Bytes>(found->second);
    }
};

struct Broken {};

static std::optional<Bytes> broken(const Key &)
{
    throw Broken();
}

static bool is_broken(Block &block)
{
    try {
        block.run(broken);
    } catch (const Broken &) {
        return true;
    }
    return false;
}

// What examples/counter does at a key: README.md has its gas, and tests/gate/library_rows.py its pc.
static void need_count(const Receipt &receipt, const Key &key, std::uint8_t count)
{
    need(receipt.end == RVSTM_END_RETURNED && receipt.gas == 639 && receipt.pc == 0x10034, "the receipt");
    need(receipt.output.empty() && receipt.registers[0] == 0 && receipt.registers[2] == 0x110000, "the output and the registers");
    need(receipt.writes.size() == 1 && receipt.writes[0].key == key && receipt.writes[0].kind == RVSTM_WRITE_VALUE, "the write");
    need(receipt.writes[0].value == Bytes{count, 0, 0, 0} && receipt.writes[0].amount == 0, "the value");
}

static void run(const Bytes &file)
{
    Key key{}, absent{};
    key[31] = 1;
    absent[0] = 0xff;
    const Bytes input(key.begin(), key.end()), other(absent.begin(), absent.end());
    const Ledger ledger{{{key, {1, 0, 0, 0}}}};

    Image image(file), moved(std::move(image));
    need(status_of([&] { Block(1).call(image, 1000, input); }) == RVSTM_CLOSED, "an image that was moved away");
    std::vector<Block> blocks;
    for (int number = 0; number < 5; number++) blocks.emplace_back(1).call(moved, 1000, input).call(moved, 1000, input).call(moved, 1000, other);
    moved = Image(file);

    need(is_broken(blocks[0]) && is_broken(blocks[0]) && is_broken(blocks[1]), "what a state throws");
    int asked = 0;
    const Outcome outcome = blocks[0].run([&](const Key &one) { return asked++, ledger.get(one); });
    need(asked == 2 && outcome.receipts.size() == 3 && outcome.changes.size() == 2, "the counts");
    need_count(outcome.receipts[0], key, 2);
    need_count(outcome.receipts[1], key, 3);
    need_count(outcome.receipts[2], absent, 1);
    need(outcome.changes[0].key == key && outcome.changes[0].value == Bytes{3, 0, 0, 0}, "the first change");
    need(outcome.changes[1].key == absent && outcome.changes[1].value == Bytes{1, 0, 0, 0}, "the second change");
    need(blocks[0].run(broken).receipts.size() == 3, "a result that is read again");
    need(status_of([&] { blocks[0].call(moved, 1000, input); }) == RVSTM_WRONG_STAGE, "a call after the run");

    blocks[2] = std::move(blocks[1]);
    need(status_of([&] { blocks[2].run([](const Key &) { return std::optional<Bytes>(Bytes(257)); }); }) == RVSTM_LONG_VALUE, "a long value");
    need(blocks[2].run(ledger).changes.size() == 2, "a run after a long value");
    need(status_of([&] { Block(4); }) == RVSTM_BAD_RULES, "rules 4");
    need(status_of([&] { blocks[3].call(moved, 0, {}); }) == RVSTM_BAD_GAS, "no gas");
    need(status_of([&] { blocks[3].call(moved, 1, Bytes(4097)); }) == RVSTM_LONG_INPUT, "a long input");
    need(Block(3).run(ledger).receipts.empty(), "a block without calls");
    try {
        Image none(Bytes{});
    } catch (const Refusal &refusal) {
        need(refusal.what() == std::string("rvstm: elf Truncated 1") && refusal.parts().number == 1, "why a file is refused");
        return;
    }
    need(false, "a file that is no program");
}

int main(int, char **words)
{
    try {
        std::ifstream file(words[1], std::ios::binary);
        run(Bytes(std::istreambuf_iterator<char>(file), {}));
    } catch (const std::exception &error) {
        std::fprintf(stderr, "blocks: %s\n", error.what());
        return 1;
    }
}
