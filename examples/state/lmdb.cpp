// A block over a database of LMDB. It puts the `store` lines of a block file into the database, runs its calls over that, and puts there
// what the block changes, all in one transaction. It prints what `rvstm seq` prints over the keys that the calls ask for.
//
// usage: state-lmdb DATABASE < BLOCK
//
// The paths of programs start from the folder in which it runs.
#include <lmdb.h>

#include <cstdio>
#include <fstream>
#include <iterator>
#include <map>
#include <memory>
#include <set>

#include "rvstm.hpp"
#include "text.h"

using rvstm::Bytes;
using rvstm::Key;

// A database of one file, with a transaction that is dropped unless it is committed.
class Ledger {
public:
    explicit Ledger(const char *path)
    {
        MDB_env *made;
        check(mdb_env_create(&made));
        environment.reset(made);
        check(mdb_env_set_mapsize(made, GREATEST));
        check(mdb_env_open(made, path, MDB_NOSUBDIR, 0644));
        begin();
        check(mdb_dbi_open(transaction.get(), nullptr, 0, &table));
    }

    std::optional<Bytes> get(const Key &key) const
    {
        MDB_val name = value_of(key), found;
        const int code = mdb_get(transaction.get(), table, &name, &found);
        if (code == MDB_NOTFOUND) return std::nullopt;
        check(code);
        const auto *bytes = static_cast<const std::uint8_t *>(found.mv_data);
        return Bytes(bytes, bytes + found.mv_size);
    }

    void put(const Key &key, const Bytes &value)
    {
        MDB_val name = value_of(key), bytes = value_of(value);
        check(mdb_put(transaction.get(), table, &name, &bytes, 0));
    }

    void remove(const Key &key)
    {
        MDB_val name = value_of(key);
        const int code = mdb_del(transaction.get(), table, &name, nullptr);
        if (code != MDB_NOTFOUND) check(code);
    }

    // What follows is in a transaction of its own.
    void commit()
    {
        check(mdb_txn_commit(transaction.release()));
        begin();
    }

private:
    static constexpr std::size_t GREATEST = std::size_t{1} << 36; // bytes of addresses: the file is as long as what it has
    std::unique_ptr<MDB_env, void (*)(MDB_env *)> environment{nullptr, mdb_env_close};
    std::unique_ptr<MDB_txn, void (*)(MDB_txn *)> transaction{nullptr, mdb_txn_abort};
    MDB_dbi table = 0;

    void begin()
    {
        MDB_txn *begun;
        check(mdb_txn_begin(environment.get(), nullptr, 0, &begun));
        transaction.reset(begun);
    }

    static void check(int code)
    {
        if (code != MDB_SUCCESS) throw std::runtime_error(mdb_strerror(code));
    }

    template <class Sequence>
    static MDB_val value_of(const Sequence &bytes)
    {
        return {bytes.size(), const_cast<std::uint8_t *>(bytes.data())};
    }
};

static Bytes read_file(const std::string &path)
{
    std::ifstream file(path, std::ios::binary);
    if (!file) throw std::runtime_error(path + " can't be read");
    return {std::istreambuf_iterator<char>(file), {}};
}

// Puts the storage of a block file into the database, and its calls into a block.
static rvstm::Block read_block(FILE *file, Ledger &ledger)
{
    rvstm::Block block(read_rules(file));
    std::map<std::uint32_t, rvstm::Image> images; // they may go before the block runs
    auto line = std::make_unique<struct line>();
    for (line_kind kind; (kind = read_line(file, line.get())) != NO_LINE;) {
        const Bytes bytes(line->bytes, line->bytes + line->length);
        if (kind == BAD_LINE) throw std::runtime_error("no line of a block file");
        if (kind == PROGRAM_LINE) images.emplace(line->program, read_file(line->path));
        if (kind == STORE_LINE) ledger.put(rvstm::detail::key_of(line->key), bytes);
        if (kind == CALL_LINE) block.call(images.at(line->program), line->gas, bytes);
    }
    return block;
}

static void print(const rvstm::Outcome &outcome)
{
    for (std::size_t call = 0; call < outcome.receipts.size(); call++) {
        const rvstm::Receipt &receipt = outcome.receipts[call];
        const Bytes &output = receipt.output;
        print_receipt(call, receipt.end, receipt.gas, receipt.pc, receipt.registers.data(), output.data(), output.size());
        for (const auto &[key, kind, value, amount] : receipt.writes)
            print_write(call, key.data(), kind, value.data(), value.size(), amount);
    }
}

static void run(const char *path)
{
    Ledger ledger(path);
    rvstm::Block block = read_block(stdin, ledger);
    std::set<Key> touched;
    const rvstm::Outcome outcome = block.run([&](const Key &key) {
        touched.insert(key);
        return ledger.get(key);
    });
    for (const auto &[key, value] : outcome.changes) {
        touched.insert(key);
        if (value) ledger.put(key, *value);
        else ledger.remove(key);
    }
    ledger.commit();

    print(outcome);
    for (const Key &key : touched)
        if (const auto value = ledger.get(key)) print_store(key.data(), value->data(), value->size());
    std::puts("end");
}

int main(int count, char **words)
{
    try {
        if (count != 2) throw std::runtime_error("usage: state-lmdb DATABASE < BLOCK");
        if (rvstm_version() != RVSTM_VERSION) throw std::runtime_error("the library has another version than its header");
        run(words[1]);
    } catch (const std::exception &error) {
        std::fprintf(stderr, "state-lmdb: %s\n", error.what());
        return 1;
    }
}
