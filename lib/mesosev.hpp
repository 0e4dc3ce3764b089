// mesosev.hpp: mesosev.h for C++17 and later. Decodes the event stream of the Apache Mesos v1
// scheduler API, and checks a scheduler's calls against its offers.
//
// Texts are UTF-8, and are passed as std::string_view. Nothing here throws: an allocation that
// fails is Status::no_memory. Exceptions and RTTI may be off.
//
// Obligations of the caller, which no function checks:
// - One call at a time uses a Decoder or a Session, on any thread, also if the call is const.
//   Different ones are independent.
// - Nothing writes the bytes of an argument during the call. The calling thread has 64 KiB of stack
//   left. No call is made from a signal handler, or in the child after a fork of a process with
//   threads.
#ifndef MESOSEV_HPP
#define MESOSEV_HPP

#include "mesosev.h"

#include <array>
#include <cstddef>
#include <cstdint>
#include <cstdlib>
#include <cstring>
#include <memory>
#include <string_view>
#include <utility>

namespace mesosev {

/// The outcome of a call. The values 1 to 16 are the faults F1 to F16 of docs/FORMAT.md: fault_of
/// returns their numbers, and only F13 has a name here. The values from not_subscribed on are the
/// refusals S1 to S8: refusal_of returns their numbers.
enum class Status : std::uint32_t {
    good = MES_GOOD,                          ///< done
    no_memory = MES_NO_MEMORY,                ///< F13: an allocation failed
    more = MES_MORE,                          ///< all bytes were used; more input is needed
    event = MES_EVENT,                        ///< an event was decoded; by next_many: as many as there is room for
    end = MES_END,                            ///< the stream has ended
    no_text = MES_NO_TEXT,                    ///< an event or call whose text is too large, too deep or not allocated
    absent = MES_ABSENT,                      ///< the session has no framework, or no such offer or update
    bad_limit = MES_BAD_LIMIT,                ///< the limit is not 1 to largest_limit
    bad_framing = MES_BAD_FRAMING,            ///< the framing is neither plain nor chunked
    bad_pointer = MES_BAD_POINTER,            ///< the Decoder or Session was moved away, or could not be created
    not_subscribed = MES_NOT_SUBSCRIBED,      ///< S1: not subscribed, or the call names another framework
    named_twice = MES_NAMED_TWICE,            ///< S2: an offer or a task is named twice
    no_such_offer = MES_NO_SUCH_OFFER,        ///< S3: an offer is not outstanding
    two_agents = MES_TWO_AGENTS,              ///< S4: the offers are of more than one agent
    wrong_agent = MES_WRONG_AGENT,            ///< S5: a task is for another agent than the offers
    exceeds = MES_EXCEEDS,                    ///< S6: the tasks take more than the offers have
    not_owed = MES_NOT_OWED,                  ///< S7: no such update is unacknowledged
    refused_no_memory = MES_REFUSED_NO_MEMORY ///< S8: an allocation failed for an event
};

/// Returns the number of a fault, 1 to 16 for F1 to F16, or 0 for another status.
constexpr std::uint32_t fault_of(Status status) noexcept
{
    return MES_IS_FAULT(static_cast<std::uint32_t>(status)) ? static_cast<std::uint32_t>(status) : 0;
}

/// Returns the number of a refusal, 1 to 8 for S1 to S8, or 0 for another status.
constexpr std::uint32_t refusal_of(Status status) noexcept
{
    return MES_IS_REFUSAL(static_cast<std::uint32_t>(status)) ? static_cast<std::uint32_t>(status) - 200 : 0;
}

/// The framing of a stream: concatenated records (RecordIO), or records in a chunked HTTP body.
enum class Framing : std::uint32_t { plain = MES_PLAIN, chunked = MES_CHUNKED };

/// The type of an event; `other` is one whose name only its text has.
enum class Type : std::uint32_t {
    other = MES_OTHER,
    subscribed = MES_SUBSCRIBED,
    offers = MES_OFFERS,
    rescind = MES_RESCIND,
    update = MES_UPDATE,
    message = MES_MESSAGE,
    failure = MES_FAILURE,
    error = MES_ERROR,
    heartbeat = MES_HEARTBEAT
};

/// The default and the largest record limit, in bytes.
inline constexpr std::uint32_t default_limit = MES_LIMIT_USUAL;
inline constexpr std::uint32_t largest_limit = MES_LIMIT_MOST;

class Result;

/// Internal.
namespace detail {

/// The first room for a text whose size no argument suggests, in bytes: most offers have fewer.
inline constexpr std::size_t usual_room = 4096;

/// Returns the first room for the text of a message of `length` bytes. The canonical text of a
/// message is seldom longer.
constexpr std::size_t room_for(std::size_t length) noexcept { return length + MES_REFUSAL_ROOM; }

/// Frees what malloc, mes_decoder_new or mes_session_new has made.
struct Free {
    void operator()(char *bytes) const noexcept { std::free(bytes); }
    void operator()(mes_decoder *decoder) const noexcept { mes_decoder_free(decoder); }
    void operator()(mes_session *session) const noexcept { mes_session_free(session); }
};

template <typename Function, typename... Arguments>
Result ask(std::size_t room, Function function, Arguments... arguments) noexcept;

template <typename Function>
Result rewrite(Function function, std::string_view text) noexcept;

} // namespace detail

/// What a call returned: a status and a text, which this object owns. It can be moved, not copied.
class [[nodiscard]] Result {
  public:
    Status status() const noexcept { return status_; }

    /// Returns whether the status is Status::good.
    explicit operator bool() const noexcept { return status_ == Status::good; }

    /// Returns the text that the call describes if the status is good, or the line of a fault or a
    /// refusal, else an empty text. It is valid while this object exists, and a NUL follows it.
    std::string_view text() const & noexcept { return bytes_ ? std::string_view(bytes_.get(), size_) : ""; }
    std::string_view text() const && = delete; // The text would be freed at the end of the expression.

    /// Returns the number of a fault, 1 to 16 for F1 to F16, or 0 if the status is no fault.
    std::uint32_t fault() const noexcept { return fault_of(status_); }
    bool is_fault() const noexcept { return fault() != 0; }

    /// Returns the number of a refusal, 1 to 8 for S1 to S8, or 0 if the status is no refusal.
    std::uint32_t refusal() const noexcept { return refusal_of(status_); }
    bool is_refusal() const noexcept { return refusal() != 0; }

  protected:
    explicit Result(Status status) noexcept : status_(status) {}

  private:
    template <typename Function, typename... Arguments>
    friend Result detail::ask(std::size_t, Function, Arguments...) noexcept;

    Status status_;
    std::unique_ptr<char, detail::Free> bytes_;
    std::size_t size_ = 0;
};

/// Calls a function of the library with room for its text, and again with more room if the text
/// does not fit. The room is allocated before the call, so that no applied call loses its text. It
/// is new for each call, since the arguments may be texts of earlier results.
template <typename Function, typename... Arguments>
Result detail::ask(std::size_t room, Function function, Arguments... arguments) noexcept
{
    for (;;) {
        Result result(Status::no_memory);
        result.bytes_.reset(static_cast<char *>(std::malloc(room)));
        if (!result.bytes_) return result;
        result.bytes_.get()[0] = '\0';
        result.status_ = static_cast<Status>(function(arguments..., result.bytes_.get(), room, &result.size_));
        if (result.size_ < room) return result;
        room = result.size_ + 1;
    }
}

/// Like ask, for a function that reads one text and returns another.
template <typename Function>
Result detail::rewrite(Function function, std::string_view text) noexcept
{
    return ask(room_for(text.size()), function, text.data(), text.size());
}

/// A Decoder or a Session, or the reason for which there is none. If the status is not good, each
/// call of the owner returns Status::bad_pointer, 0 or false. To keep the owner, move it out:
/// `Session session = std::move(*created);`.
template <typename Owner>
class [[nodiscard]] Created : public Result {
  public:
    Created(Result &&result, Owner &&owner) noexcept : Result(std::move(result)), owner_(std::move(owner)) {}
    Created(Status status, Owner &&owner) noexcept : Result(status), owner_(std::move(owner)) {}

    Owner &operator*() & noexcept { return owner_; }
    const Owner &operator*() const & noexcept { return owner_; }
    Owner &&operator*() && noexcept { return std::move(owner_); }
    Owner *operator->() noexcept { return &owner_; }
    const Owner *operator->() const noexcept { return &owner_; }

  private:
    Owner owner_;
};

/// An event, in the decoder's memory.
struct Event {
    Type type = Type::other;
    /// The canonical JSON text, without a NUL. It is empty if the decoder makes no texts, or if the
    /// text is too large, too deep or could not be allocated. It is valid until the decoder's next call.
    std::string_view text = {};
};

/// What a decoder returned; by default, that it needs more input.
struct [[nodiscard]] Decoded {
    Status status = Status::more;
    Type type = Type::other; ///< that of the event, if there is one
    /// The text of the event as in Event, or the line of the fault; else empty.
    std::string_view text = {};

    /// Returns whether there is an event, with or without a text.
    bool is_event() const noexcept { return status == Status::event || status == Status::no_text; }

    /// Returns the number of a fault, 1 to 16 for F1 to F16, or 0 if the status is no fault.
    std::uint32_t fault() const noexcept { return fault_of(status); }
    bool is_fault() const noexcept { return fault() != 0; }
};

namespace detail {

inline std::string_view text_of(const mes_event &event) noexcept { return {event.text, event.length}; }

inline Decoded decoded(std::uint32_t status, const mes_event &event) noexcept
{
    return {static_cast<Status>(status), static_cast<Type>(event.type), text_of(event)};
}

} // namespace detail

/// Room for `most` events of one call of Decoder::next_many, and those events, in order:
/// `for (mesosev::Event event : batch)`. The events are valid until the decoder's next call.
template <std::size_t most = 256>
class Batch {
    static_assert(most > 0, "a batch has room for at least one event");

  public:
    class Iterator {
      public:
        explicit Iterator(const mes_event *at) noexcept : at_(at) {}
        Event operator*() const noexcept { return {static_cast<Type>(at_->type), detail::text_of(*at_)}; }
        Iterator &operator++() noexcept
        {
            ++at_;
            return *this;
        }
        bool operator!=(const Iterator &other) const noexcept { return at_ != other.at_; }

      private:
        const mes_event *at_;
    };

    Iterator begin() const noexcept { return Iterator(events_.data()); }
    Iterator end() const noexcept { return Iterator(events_.data() + count_); }
    std::size_t size() const noexcept { return count_; }

  private:
    friend class Decoder;

    std::array<mes_event, most> events_{};
    std::size_t count_ = 0;
};

/// A decoder of a stream, which arrives in pieces of any size.
class Decoder {
  public:
    /// Creates a decoder before the first byte of a stream. limit: the largest record in bytes, 1 to
    /// largest_limit. with_texts: whether events get texts. The status is good, no_memory, bad_limit
    /// or bad_framing.
    static Created<Decoder> create(Framing framing, std::uint32_t limit = default_limit,
                                   bool with_texts = true) noexcept
    {
        mes_decoder *made = nullptr;
        const std::uint32_t flags = with_texts ? 0 : MES_WITHOUT_TEXTS;
        const std::uint32_t status = mes_decoder_new(limit, static_cast<std::uint32_t>(framing), flags, &made);
        return {static_cast<Status>(status), Decoder(made)};
    }

    /// Decodes bytes up to the first of these: the end of a record, of the stream or of the bytes, or
    /// a fault. Removes the used bytes from `rest`. The status is more if all bytes were used; or,
    /// with at least one used, event, no_text, end or a fault. Later calls return the same end or
    /// fault, and use no byte.
    Decoded next(std::string_view &rest) noexcept
    {
        std::size_t used = 0;
        mes_event event{};
        const std::uint32_t status = mes_decoder_next(handle_.get(), rest.data(), rest.size(), &used, &event);
        rest.remove_prefix(used);
        return detail::decoded(status, event);
    }

    /// Decodes many events in one call, as repeated calls of next do. Removes the used bytes from
    /// `rest`. Returns event if the batch is full, even if all bytes were used; else more if all
    /// bytes were used; else end or a fault, after the events that precede it. An allocation that
    /// fails for a text costs all events of the batch so far their texts. To get the line of a
    /// fault, call finish after the texts of the batch are no longer used.
    template <std::size_t most>
    [[nodiscard]] Status next_many(std::string_view &rest, Batch<most> &batch) noexcept
    {
        std::size_t used = 0;
        batch.count_ = 0;
        const std::uint32_t status =
            mes_decoder_many(handle_.get(), rest.data(), rest.size(), &used, batch.events_.data(), most, &batch.count_);
        rest.remove_prefix(used);
        return static_cast<Status>(status);
    }

    /// Ends the input. The status is end or a fault: F6 if a chunked body has not ended, F10 if a
    /// record has not, or an earlier fault. Later calls on the decoder return the same.
    Decoded finish() noexcept
    {
        mes_event event{};
        const std::uint32_t status = mes_decoder_finish(handle_.get(), &event);
        return detail::decoded(status, event);
    }

  private:
    explicit Decoder(mes_decoder *made) noexcept : handle_(made) {}

    std::unique_ptr<mes_decoder, detail::Free> handle_;
};

/// The session of a framework with its master: the outstanding offers, the unacknowledged updates,
/// and which calls are allowed. Events and calls are JSON texts.
///
/// Each Result is one of these; unless the status is good, the session is unchanged:
/// - good, with the text that the method describes;
/// - the fault F11, F12 or F13, with its line, as that of record 1 (an allocation of the text that
///   failed is F13 without a line);
/// - a refusal, S1 to S8, with its line, as `mesosev replay` prints it;
/// - no_text, if the text is too large or too deep for any record;
/// - absent or bad_pointer.
class Session {
  public:
    /// Creates a session without a history. The status is good or no_memory.
    static Created<Session> create() noexcept
    {
        mes_session *made = nullptr;
        const std::uint32_t status = mes_session_new(&made);
        return {static_cast<Status>(status), Session(made)};
    }

    /// Creates the session to which a log leads. Unless the status is good, the text is the line that
    /// `mesosev replay` prints.
    static Created<Session> replay(std::string_view log) noexcept
    {
        mes_session *made = nullptr;
        Result result = detail::ask(MES_REFUSAL_ROOM, mes_log_replay, log.data(), log.size(), &made);
        return {std::move(result), Session(made)};
    }

    /// Applies an event received from the master. The text is empty.
    Result heard(std::string_view event) noexcept
    {
        return detail::ask(MES_REFUSAL_ROOM, mes_session_heard, handle_.get(), event.data(), event.size());
    }

    /// Checks a call, and applies it if it is allowed (S1 to S7). The text is the canonical text of
    /// the call, to be posted to the master.
    Result said(std::string_view call) noexcept { return ask(mes_session_said, call); }

    /// Like said, but does not apply the call.
    Result check(std::string_view call) const noexcept { return ask(mes_session_check, call); }

    /// Makes and applies the SUBSCRIBE of a framework, whose FrameworkInfo is the JSON text `info`.
    /// It names the framework of the session, if there is one. The text is that of the SUBSCRIBE.
    Result subscribe(std::string_view info) noexcept { return ask(mes_session_subscribe, info); }

    /// Makes and applies the ACKNOWLEDGE of the unacknowledged update at an index from 0, in the order of
    /// arrival. The text is its canonical text. Absent if there are not that many.
    Result acknowledge(std::size_t index) noexcept
    {
        return detail::ask(detail::usual_room, mes_session_acknowledge, handle_.get(), index);
    }

    /// Records that the stream of events broke: no offer is outstanding until the next SUBSCRIBED.
    void broken() noexcept { mes_session_broken(handle_.get()); }

    /// Returns whether a SUBSCRIBED was received since the stream last broke.
    bool connected() const noexcept { return mes_session_connected(handle_.get()) != 0; }

    /// Returns the number of entries of the history: events, calls and breaks.
    std::uint64_t entries() const noexcept { return mes_session_entries(handle_.get()); }

    /// The text is the identifier of the framework, not in quotes; absent before the first SUBSCRIBED.
    Result framework() const noexcept { return detail::ask(detail::usual_room, mes_session_framework, handle_.get()); }

    /// Returns the number of outstanding offers.
    std::size_t offer_count() const noexcept { return mes_session_offer_count(handle_.get()); }

    /// The text is the canonical text of the outstanding offer at an index from 0, in the order of
    /// arrival; absent if there are not that many.
    Result offer_at(std::size_t index) const noexcept
    {
        return detail::ask(detail::usual_room, mes_session_offer_at, handle_.get(), index);
    }

    /// Like offer_at, for the outstanding offer with the identifier `id`, not in quotes.
    Result offer(std::string_view id) const noexcept
    {
        return detail::ask(detail::usual_room, mes_session_offer, handle_.get(), id.data(), id.size());
    }

    /// Returns the number of unacknowledged updates.
    std::size_t owed_count() const noexcept { return mes_session_owed_count(handle_.get()); }

    /// The text is the `acknowledge` of the ACKNOWLEDGE for the unacknowledged update at an index from
    /// 0, in the order of arrival: a JSON object with its agent_id, its task_id and its uuid. Absent if
    /// there are not that many.
    Result owed_at(std::size_t index) const noexcept
    {
        return detail::ask(detail::usual_room, mes_session_owed_at, handle_.get(), index);
    }

  private:
    explicit Session(mes_session *made) noexcept : handle_(made) {}

    template <typename Function>
    Result ask(Function function, std::string_view text) const noexcept
    {
        return detail::ask(detail::room_for(text.size()), function, handle_.get(), text.data(), text.size());
    }

    std::unique_ptr<mes_session, detail::Free> handle_;
};

/// Returns the version of the library, such as `0.1.0`.
inline std::string_view version() noexcept { return mes_version(); }

/// The outcome of check. The text is the line that `mesosev check` prints, also if the stream is whole.
struct [[nodiscard]] Checked : Result {
    explicit Checked(Result &&result) noexcept : Result(std::move(result)) {}

    std::uint64_t events = 0; ///< the number of events
    std::uint64_t used = 0;   ///< the number of bytes used, up to the end of the stream or the fault
};

/// Decodes the bytes of a whole stream. limit: as for Decoder::create. The status is good, the first
/// fault, bad_limit or bad_framing.
inline Checked check(std::string_view bytes, Framing framing, std::uint32_t limit = default_limit) noexcept
{
    std::uint64_t events = 0, used = 0;
    const auto count = [&](char *line, std::size_t room, std::size_t *size) noexcept {
        const auto number = static_cast<std::uint32_t>(framing);
        const std::uint32_t status = mes_check(bytes.data(), bytes.size(), limit, number, &events, &used, line, room);
        *size = std::strlen(line);
        return status;
    };
    Checked checked(detail::ask(MES_LINE_ROOM, count));
    checked.events = events;
    checked.used = used;
    return checked;
}

/// Decodes a scheduler's call. The status is good, with its canonical text; the fault F11, F12 or
/// F13, with its line, as that of record 1; or no_text.
inline Result call(std::string_view bytes) noexcept { return detail::rewrite(mes_call, bytes); }

/// Checks, without a session, whether tasks fit the offers on which they would be launched (S6).
/// offers: a JSON array of offers. tasks: a JSON array of TaskInfos. The status is good, with an
/// empty text; exceeds, with its line, as that of record 1; or the fault F11, F12 or F13, with its
/// line: as that of record 1 in `offers`, of record 2 in `tasks`.
inline Result fits(std::string_view offers, std::string_view tasks) noexcept
{
    return detail::ask(MES_REFUSAL_ROOM, mes_fits, offers.data(), offers.size(), tasks.data(), tasks.size());
}

/// The functions log_.. return the records of a session log of version 2, which `mesosev replay` and
/// Session::replay read: first the header, then a record for each event received, each call sent, and
/// each break of the stream, in order. The status is good, F11 to F13 with its line, or no_text.
inline Result log_header() noexcept { return detail::ask(MES_REFUSAL_ROOM, mes_log_header); }

/// The record of an event; see log_header.
inline Result log_event(std::string_view event) noexcept { return detail::rewrite(mes_log_event, event); }

/// The record of a call; see log_header.
inline Result log_call(std::string_view call) noexcept { return detail::rewrite(mes_log_call, call); }

/// The record of a break of the stream; see log_header.
inline Result log_broken() noexcept { return detail::ask(MES_REFUSAL_ROOM, mes_log_broken); }

/// The text is the record of an event in a stream, for programs that send events. The status is good,
/// F11 to F13 with its line, or no_text.
inline Result write_event(std::string_view event) noexcept { return detail::rewrite(mes_write_event, event); }

/// The text is a chunk of these bytes of an HTTP body (RFC 9112, section 7.1); if there are none, the
/// last chunk, which ends the body.
inline Result write_chunk(std::string_view bytes) noexcept { return detail::rewrite(mes_write_chunk, bytes); }

} // namespace mesosev

#endif
