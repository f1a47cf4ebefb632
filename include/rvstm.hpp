/**
 * @file
 * Blocks over the caller's own storage in C++17: the calls of rvstm.h, with owners, values and exceptions. Only the head of rvstm.h
 * has the duties of a caller; duties 1, 2 and 4 are kept here.
 *
 *     rvstm::Image token(file);
 *     rvstm::Outcome outcome = rvstm::Block(1).call(token, 5000, input).run([&](const rvstm::Key &key) { return database.get(key); });
 */
#ifndef RVSTM_HPP
#define RVSTM_HPP

#include <algorithm>
#include <array>
#include <cstddef>
#include <cstdint>
#include <new>
#include <optional>
#include <stdexcept>
#include <string>
#include <type_traits>
#include <utility>
#include <vector>

#include "rvstm.h"

namespace rvstm {

using Bytes = std::vector<std::uint8_t>;
using Key = std::array<std::uint8_t, 32>;

/** A call of the library that was not done, with its status. Want of memory is a std::bad_alloc. */
class Fault : public std::runtime_error {
public:
    Fault(std::uint32_t status, const std::string &text) : std::runtime_error("rvstm: " + text), of_call(status) {}
    std::uint32_t status() const noexcept { return of_call; }

private:
    std::uint32_t of_call;
};

/** A file is no program: the parts of the refusal, which what() has too. */
class Refusal : public Fault {
public:
    explicit Refusal(const rvstm_refusal_parts &parts) : Fault(RVSTM_REFUSED, text_of(parts)), of_file(parts) {}
    const rvstm_refusal_parts &parts() const noexcept { return of_file; }

private:
    rvstm_refusal_parts of_file;

    static std::string text_of(const rvstm_refusal_parts &parts)
    {
        const char *area = reinterpret_cast<const char *>(parts.area), *name = reinterpret_cast<const char *>(parts.name);
        return std::string(area) + " " + name + " " + std::to_string(parts.number);
    }
};

/** What rvstm_write is, with as many bytes as the value has. */
struct Write {
    Key key;
    rvstm_write_kind kind;
    Bytes value;
    std::uint64_t amount;
};

/** What rvstm_receipt is, with the output and the writes. */
struct Receipt {
    rvstm_end end;
    std::uint32_t gas;
    std::uint32_t pc;
    std::array<std::uint32_t, 32> registers;
    Bytes output;
    std::vector<Write> writes;
};

/** What the block leaves at a key; without a value, the key is removed. */
struct Change {
    Key key;
    std::optional<Bytes> value;
};

/** What the calls did, in block order, and what the block changes, by key. */
struct Outcome {
    std::vector<Receipt> receipts;
    std::vector<Change> changes;
};

/** What the classes below are made of. */
namespace detail {

/** Throws unless a call is done. */
inline void check(std::uint32_t status)
{
    static const char *const reasons[] = {"the rules are not 1, 2 or 3", "the block has 1,024 calls", "the gas limit is not 1 to 10,000,000",
        "the input has more than 4,096 bytes", "no key is asked for", "the value has more than 256 bytes"};
    if (status == RVSTM_DONE) return;
    if (status == RVSTM_FAILED || status == RVSTM_NO_MEMORY || status == RVSTM_PAUSED) throw std::bad_alloc();
    if (status >= RVSTM_BAD_RULES && status <= RVSTM_LONG_VALUE) throw Fault(status, reasons[status - RVSTM_BAD_RULES]);
    if (status == RVSTM_WRONG_STAGE) throw Fault(status, "the run has begun");
    throw Fault(status, status == RVSTM_CLOSED ? "the handle was moved away" : "status " + std::to_string(status));
}

/** The address of bytes, which is not null if there are none. */
inline const std::uint8_t *address(const Bytes &bytes)
{
    static const std::uint8_t nothing = 0;
    return bytes.empty() ? &nothing : bytes.data();
}

inline Key key_of(const std::uint8_t *bytes)
{
    Key key;
    std::copy_n(bytes, key.size(), key.begin());
    return key;
}

/** A handle, which is closed when its owner goes. It may be moved, and not copied. */
template <class Handle, std::uint32_t (*close)(Handle *)>
class Owner {
public:
    Owner() = default;
    Owner(Owner &&other) noexcept : handle(std::exchange(other.handle, Handle{})) {}
    ~Owner() { close(&handle); }

    Owner &operator=(Owner &&other) noexcept
    {
        std::swap(handle, other.handle);
        return *this;
    }

    Handle handle{};
};

} // namespace detail

/** A program, which was loaded once, and which calls of any number of blocks may run. */
class Image {
public:
    /** Throws a Refusal if the file is no program. */
    explicit Image(const Bytes &file)
    {
        rvstm_refusal_parts parts;
        const std::uint32_t status = rvstm_image_open(&owner.handle, detail::address(file), file.size(), &parts);
        if (status == RVSTM_REFUSED) throw Refusal(parts);
        detail::check(status);
    }

private:
    detail::Owner<rvstm_image, rvstm_image_close> owner;
    friend class Block;
};

/** A block: its calls, then their run. */
class Block {
public:
    explicit Block(std::uint32_t rules) { detail::check(rvstm_block_open(&owner.handle, rules)); }

    /** Adds a call after the others. */
    Block &call(Image &image, std::uint32_t gas, const Bytes &input)
    {
        detail::check(rvstm_calls_add(&owner.handle, &image.owner.handle, gas, detail::address(input), input.size()));
        return *this;
    }

    /**
     * Runs the calls over a state: a function of a key, or an object with get(key). Either returns a std::optional<Bytes>, the value that
     * the storage has before the block. What it throws passes on, as does a std::bad_alloc. A further run() then continues the block,
     * and after the end returns the same outcome.
     */
    template <class State>
    Outcome run(State &&state)
    {
        rvstm_key asked;
        std::uint32_t status;
        while ((status = rvstm_run_go(&owner.handle, &asked)) == RVSTM_KEY) {
            const Key key = detail::key_of(asked.bytes);
            if constexpr (std::is_invocable_v<State &, const Key &>) answer(state(key));
            else answer(state.get(key));
        }
        if (status != RVSTM_ENDED) detail::check(status);
        return outcome();
    }

private:
    detail::Owner<rvstm_block, rvstm_block_close> owner;

    void answer(const std::optional<Bytes> &value)
    {
        const Bytes bytes = value.value_or(Bytes());
        detail::check(rvstm_run_base(&owner.handle, value.has_value(), detail::address(bytes), bytes.size()));
    }

    Receipt receipt(std::size_t call)
    {
        rvstm_receipt had;
        rvstm_write write;
        std::uint8_t output[256];
        detail::check(rvstm_result_receipt(&owner.handle, call, &had));
        detail::check(rvstm_result_output(&owner.handle, call, output, sizeof output));
        Receipt made{static_cast<rvstm_end>(had.end), had.gas, had.pc, {}, Bytes(output, output + had.output_length), {}};
        std::copy_n(had.registers, made.registers.size(), made.registers.begin());
        for (std::size_t index = 0; index < had.writes; index++) {
            detail::check(rvstm_result_write(&owner.handle, call, index, &write));
            made.writes.push_back({detail::key_of(write.key), static_cast<rvstm_write_kind>(write.kind),
                Bytes(write.value, write.value + write.length), write.amount});
        }
        return made;
    }

    Outcome outcome()
    {
        rvstm_result_entries entries;
        rvstm_change change;
        Outcome made;
        detail::check(rvstm_result_counts(&owner.handle, &entries));
        for (std::size_t call = 0; call < entries.receipts; call++) made.receipts.push_back(receipt(call));
        for (std::size_t index = 0; index < entries.changes; index++) {
            detail::check(rvstm_result_change(&owner.handle, index, &change));
            const Bytes value(change.value, change.value + change.length);
            made.changes.push_back({detail::key_of(change.key), change.present ? std::optional<Bytes>(value) : std::nullopt});
        }
        return made;
    }
};

} // namespace rvstm

#endif
