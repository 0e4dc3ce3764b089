// Tests mesosev.hpp: cpp_session EXAMPLES, with the path of the folder examples. Prints each check that
// fails, and then `N passed, M failed`. The status is 0 if none fails.
#include <mesosev.hpp>

#include <algorithm>
#include <cstdio>
#include <fstream>
#include <iterator>
#include <string>
#include <tuple>
#include <type_traits>
#include <vector>

namespace {

using namespace mesosev;
using Texts = std::vector<std::string>;

constexpr auto text_fault = static_cast<Status>(11), field_fault = static_cast<Status>(12);
int passed = 0, failed = 0;

void count(bool holds, int line, std::string_view what)
{
    ++(holds ? passed : failed);
    if (!holds) std::printf("line %d: %.*s\n", line, static_cast<int>(what.size()), what.data());
}

void count_same(std::string_view expected, std::string_view got, int line)
{
    count(expected == got, line, "expected: " + std::string(expected) + "\n  got:      " + std::string(got));
}

void count_result(Status status, std::string_view text, const Result &got, int line)
{
    const std::string fault = "fault F" + std::to_string(got.fault()), refusal = "refused S" + std::to_string(got.refusal());
    count(status == got.status(), line, "the status " + std::to_string(static_cast<unsigned>(got.status())));
    count_same(text, got.text(), line);
    count(static_cast<bool>(got) == (status == Status::good), line, "operator bool");
    count(got.is_fault() == (text.compare(0, fault.size() + 1, fault + " ") == 0), line, "the number of the fault");
    count(got.is_refusal() == (text.compare(0, refusal.size() + 1, refusal + " ") == 0), line, "the number of the refusal");
}

#define EXPECT(condition) count(static_cast<bool>(condition), __LINE__, #condition)
#define EXPECT_SAME(expected, got) count_same(expected, got, __LINE__)
#define EXPECT_RESULT(status, text, got) count_result(status, text, got, __LINE__)

/// Returns a text in which each ' is replaced by ".
std::string json(std::string text)
{
    std::replace(text.begin(), text.end(), '\'', '"');
    return text;
}

const std::string F1 = "'framework_id':{'value':'F1'}";
const std::string SUBSCRIBED = json("{'type':'SUBSCRIBED','subscribed':{" + F1 + "}}");
const std::string REVIVE = json("{'type':'REVIVE'," + F1 + "}");
const std::string UPDATE = json("{'type':'UPDATE','update':{'status':{'task_id':{'value':'T1'},'state':'TASK_RUNNING',"
                                "'agent_id':{'value':'A1'},'uuid':'AAECAwQFBgcICQoLDA0ODw=='}}}");

std::string joined(const Texts &texts)
{
    std::string all;
    for (const std::string &text : texts) all.append(all.empty() ? "" : ",").append(text);
    return all;
}

/// Returns `count` resources, each of which has this value.
std::string resources_of(const std::string &value, int count = 1)
{
    Texts all;
    for (int i = 0; i < count; i++)
        all.push_back("{'name':'cpus" + std::to_string(i) + "','type':'SCALAR','scalar':{'value':" + value + "}}");
    return json("[" + joined(all) + "]");
}

std::string offer_of(const std::string &id, const std::string &agent, const std::string &resources = resources_of("1.0"))
{
    const std::string ids = "{'id':{'value':'" + id + "'}," + F1 + ",'agent_id':{'value':'" + agent + "'}";
    return json(ids + ",'hostname':'h','resources':" + resources + "}");
}

std::string offers_of(const Texts &offers) { return json("{'type':'OFFERS','offers':{'offers':[" + joined(offers) + "]}}"); }

std::string task_of(const std::string &id, const std::string &agent, const std::string &resources = resources_of("1.0"))
{
    const std::string names = "{'name':'t','task_id':{'value':'" + id + "'},'agent_id':{'value':'" + agent + "'}";
    return json(names + ",'resources':" + resources + "}");
}

std::string accept_of(const Texts &offers, const Texts &tasks = {})
{
    Texts ids;
    for (const std::string &offer : offers) ids.push_back("{'value':'" + offer + "'}");
    const std::string launch = ",'operations':[{'type':'LAUNCH','launch':{'task_infos':[" + joined(tasks) + "]}}]";
    const std::string body = "'accept':{'offer_ids':[" + joined(ids) + "]" + (tasks.empty() ? "" : launch) + "}";
    return json("{'type':'ACCEPT'," + F1 + "," + body + "}");
}

std::string key_of(const std::string &task, const std::string &uuid = "AAECAwQFBgcICQoLDA0ODw==")
{
    return json("{'agent_id':{'value':'A1'},'task_id':{'value':'" + task + "'},'uuid':'" + uuid + "'}");
}

std::string acknowledge_of(const std::string &key) { return json("{'type':'ACKNOWLEDGE'," + F1 + ",'acknowledge':" + key + "}"); }

/// The outcome of a stream: its events, the number of bytes used, and how it ended.
struct Outcome {
    std::string types; ///< a digit for each
    Texts texts;
    std::size_t used = 0;
    Status status = Status::more;
    std::string line;

    void append(Type type, std::string_view text)
    {
        types.push_back(static_cast<char>('0' + static_cast<int>(type)));
        texts.emplace_back(text);
    }
};

bool is_same(const Outcome &one, const Outcome &other)
{
    const auto all = [](const Outcome &it) { return std::tie(it.types, it.texts, it.used, it.status, it.line); };
    return all(one) == all(other);
}

std::string folder;

std::string example(const std::string &name)
{
    std::ifstream file(folder + "/" + name, std::ios::binary);
    std::string bytes((std::istreambuf_iterator<char>(file)), std::istreambuf_iterator<char>());
    count(!bytes.empty(), __LINE__, name);
    return bytes;
}

void take_next(Decoder &decoder, std::string_view &rest, Outcome &outcome)
{
    Decoded decoded = decoder.next(rest);
    for (; decoded.is_event(); decoded = decoder.next(rest)) outcome.append(decoded.type, decoded.text);
    outcome.status = decoded.status;
}

void take_many(Decoder &decoder, std::string_view &rest, Outcome &outcome)
{
    Batch<3> batch;
    do {
        outcome.status = decoder.next_many(rest, batch);
        if ((batch.size() == 3) != (outcome.status == Status::event)) count(false, __LINE__, "the size of a batch");
        for (const Event event : batch) outcome.append(event.type, event.text);
    } while (outcome.status == Status::event);
}

/// Decodes a stream in pieces of at most `most` bytes, each in an allocation of its own.
Outcome decode(std::string_view stream, Framing framing, std::size_t most, decltype(take_next) *take, bool with_texts = true)
{
    Created<Decoder> decoder = Decoder::create(framing, default_limit, with_texts);
    Outcome outcome;
    EXPECT(decoder);
    while (outcome.status == Status::more && !stream.empty()) {
        const std::size_t size = std::min(most, stream.size());
        const std::vector<char> piece(stream.data(), stream.data() + size);
        std::string_view rest(piece.data(), size);
        stream.remove_prefix(size);
        take(*decoder, rest, outcome);
        outcome.used += size - rest.size();
    }
    const Decoded end = decoder->finish();
    EXPECT(outcome.status == Status::more || outcome.status == end.status);
    outcome.status = end.status;
    outcome.line = end.text;
    return outcome;
}

void test_pieces()
{
    const std::string plain = example("stream.recordio"), chunked = example("stream.chunked");
    const std::string broken = example("broken.recordio");
    const Outcome whole = decode(plain, Framing::plain, plain.size(), take_next);
    EXPECT_SAME("1823445846607", whole.types);
    EXPECT_SAME(json("{'type':'HEARTBEAT'}"), whole.texts.at(1));
    EXPECT(whole.status == Status::end && whole.used == plain.size() && whole.line.empty());
    const Outcome fault = decode(broken, Framing::plain, broken.size(), take_next);
    EXPECT(fault.types.size() == 5 && fault.texts.at(4) == whole.texts.at(4) && fault.used == 3295);
    EXPECT_SAME("fault F12 Field record 6 update.status.state UnknownName after 3295", fault.line);
    for (const std::size_t size : {std::size_t{1}, std::size_t{7}, std::size_t{512}, std::size_t{100000}}) {
        for (const auto take : {take_next, take_many}) {
            EXPECT(is_same(whole, decode(plain, Framing::plain, size, take)));
            EXPECT(is_same(fault, decode(broken, Framing::plain, size, take)));
            const Outcome cut = decode(chunked + "HTTP", Framing::chunked, size, take);
            EXPECT(cut.texts == whole.texts && cut.status == Status::end && cut.used == chunked.size());
            const Outcome bare = decode(plain, Framing::plain, size, take, false);
            EXPECT(bare.types == whole.types && bare.texts == Texts(13));
        }
    }
}

void test_ends()
{
    Created<Decoder> decoder = Decoder::create(Framing::plain);
    std::string_view rest = "20\n{\"type\":\"HEARTBEAT\"}x9";
    EXPECT(decoder->next(rest).type == Type::heartbeat && rest == "x9");
    const Decoded fault = decoder->next(rest);
    EXPECT(fault.is_fault() && fault.fault() == 7 && !fault.is_event() && fault.type == Type::other && rest == "9");
    EXPECT_SAME("fault F7 BadSizeLine after 24", fault.text);
    EXPECT(decoder->next(rest).fault() == 7 && rest == "9" && decoder->finish().fault() == 7);
    EXPECT(decode("", Framing::chunked, 1, take_next).status == static_cast<Status>(6));
    EXPECT(decode("20\n{", Framing::plain, 1, take_many).status == static_cast<Status>(10));
    EXPECT_RESULT(Status::bad_limit, "", Decoder::create(Framing::plain, 0));
    EXPECT_RESULT(Status::bad_limit, "", Decoder::create(Framing::plain, largest_limit + 1));
    EXPECT_RESULT(Status::bad_framing, "", Decoder::create(static_cast<Framing>(2)));
    Decoder none = *Decoder::create(static_cast<Framing>(2));
    EXPECT(none.next(rest).status == Status::bad_pointer && rest == "9" && none.finish().status == Status::bad_pointer);
}

/// Checks an event whose canonical text nests one level too deep, since `offers` becomes an object.
void test_no_text()
{
    const std::string disk = std::string(122, '[') + std::string(122, ']');
    const std::string deep = "[{'name':'d','type':'SCALAR','scalar':{'value':1},'disk':{'a':" + disk + "}}]";
    const std::string event = json("{'type':'OFFERS','offers':[" + offer_of("O1", "A1", deep) + "]}");
    const std::string stream = std::to_string(event.size()) + "\n" + event;
    Decoder decoder = *Decoder::create(Framing::plain);
    std::string_view rest = stream;
    const Decoded decoded = decoder.next(rest);
    EXPECT(decoded.status == Status::no_text && decoded.is_event());
    EXPECT(decoded.type == Type::offers && decoded.text.empty());
    EXPECT_RESULT(Status::no_text, "", write_event(event));
}

void test_checks()
{
    const Checked whole = check(example("stream.chunked"), Framing::chunked);
    EXPECT_RESULT(Status::good, "events 13 bytes 4336", whole);
    EXPECT(whole.events == 13 && whole.used == 4336);
    const Checked broken = check(example("broken.recordio"), Framing::plain);
    EXPECT_RESULT(field_fault, "fault F12 Field record 6 update.status.state UnknownName after 3295", broken);
    EXPECT(broken.events == 5 && broken.used == 3295);
    EXPECT_RESULT(static_cast<Status>(9), "fault F9 RecordTooLarge after 3", check("20\n", Framing::plain, 19));
    EXPECT_RESULT(Status::bad_limit, "", check("", Framing::plain, 0));
    EXPECT_RESULT(Status::bad_framing, "", check("", static_cast<Framing>(9)));
    EXPECT_RESULT(Status::good, "events 0 bytes 0", check({}, Framing::plain));
    EXPECT(version() == mes_version());
}

/// A session, and the log of what was applied to it.
struct History {
    Session session = *Session::create();
    std::string log;

    History() { append(log_header()); }

    void append(const Result &record)
    {
        EXPECT(record);
        log.append(record.text());
    }

    void hear(const std::string &event)
    {
        EXPECT_RESULT(Status::good, "", session.heard(event));
        append(log_event(event));
    }

    void say(const std::string &call)
    {
        EXPECT_RESULT(Status::good, call, session.said(call));
        append(log_call(call));
    }
};

/// Returns a history in which three offers are outstanding, and an update is unacknowledged.
History begun()
{
    History history;
    history.hear(SUBSCRIBED);
    history.hear(offers_of({offer_of("O1", "A1"), offer_of("O2", "A1"), offer_of("O3", "A2")}));
    history.hear(UPDATE);
    return history;
}

std::string text_of(const Result &result) { return std::string(result.text()); }

/// Returns all that the getters of a session return, a line for each text.
std::string state_of(const Session &session)
{
    const std::string connected = session.connected() ? " connected " : " - ";
    std::string state = std::to_string(session.entries()) + connected + text_of(session.framework());
    for (std::size_t i = 0; i < session.offer_count(); i++) state += "\n" + text_of(session.offer_at(i));
    for (std::size_t i = 0; i < session.owed_count(); i++) state += "\n" + text_of(session.owed_at(i));
    return state;
}

void test_getters()
{
    Created<Session> session = Session::create();
    EXPECT_RESULT(Status::good, "", session);
    EXPECT_SAME("0 - ", state_of(*session));
    EXPECT_RESULT(Status::absent, "", session->framework());
    EXPECT_RESULT(Status::absent, "", session->offer_at(0));
    EXPECT_RESULT(Status::absent, "", session->owed_at(0));
    *session = std::move(begun().session);
    EXPECT_RESULT(Status::good, "F1", session->framework());
    EXPECT_RESULT(Status::good, offer_of("O1", "A1"), session->offer_at(0));
    EXPECT_RESULT(Status::good, offer_of("O3", "A2"), session->offer("O3"));
    EXPECT_RESULT(Status::absent, "", session->offer("O4"));
    EXPECT_RESULT(Status::absent, "", session->offer_at(3));
    EXPECT_RESULT(Status::good, key_of("T1"), session->owed_at(0));
    EXPECT_RESULT(Status::absent, "", session->owed_at(1));
    EXPECT_RESULT(Status::absent, "", session->acknowledge(1));
    EXPECT(session->entries() == 3 && session->connected() && session->offer_count() == 3 && session->owed_count() == 1);
}

void test_refusals()
{
    Session fresh = *Session::create();
    EXPECT_RESULT(Status::not_subscribed, "refused S1 NotSubscribed record 1", fresh.said(REVIVE));
    Session session = std::move(begun().session);
    const std::string before = state_of(session);
    const std::string too_much = accept_of({"O1"}, {task_of("T1", "A1", resources_of("1.001"))});
    EXPECT_RESULT(Status::named_twice, "refused S2 NamedTwice record 4", session.said(accept_of({"O1", "O1"})));
    EXPECT_RESULT(Status::no_such_offer, "refused S3 NoSuchOffer record 4 index 1", session.said(accept_of({"O1", "O9"})));
    EXPECT_RESULT(Status::two_agents, "refused S4 TwoAgents record 4", session.said(accept_of({"O1", "O3"})));
    EXPECT_RESULT(Status::wrong_agent, "refused S5 WrongAgent record 4 task 1",
                  session.said(accept_of({"O1"}, {task_of("T1", "A1"), task_of("T2", "A2")})));
    EXPECT_RESULT(Status::exceeds, "refused S6 Exceeds record 4 task 0 resource 0", session.said(too_much));
    EXPECT_RESULT(Status::exceeds, "refused S6 Exceeds record 4 task 0 resource 0", session.check(too_much));
    EXPECT_RESULT(Status::not_owed, "refused S7 NotOwed record 4", session.said(acknowledge_of(key_of("T2"))));
    EXPECT_SAME(before, state_of(session));
}

void test_faults()
{
    Session session = std::move(begun().session);
    const std::string before = state_of(session);
    EXPECT_RESULT(text_fault, "fault F11 Text record 1 byte 1 End after 1", session.heard("{"));
    EXPECT_RESULT(field_fault, "fault F12 Field record 1 offers Missing after 17", session.heard(json("{'type':'OFFERS'}")));
    EXPECT_RESULT(text_fault, "fault F11 Text record 1 byte 0 End after 0", session.heard({}));
    EXPECT_RESULT(field_fault, "fault F12 Field record 1 . WrongKind after 2", session.said("[]"));
    EXPECT_RESULT(field_fault, "fault F12 Field record 1 type Missing after 2", session.check("{}"));
    EXPECT_RESULT(field_fault, "fault F12 Field record 1 user WrongKind after 10", session.subscribe(json("{'user':1}")));
    EXPECT_RESULT(field_fault, "fault F12 Field record 1 framework_id Missing after 17", call(json("{'type':'REVIVE'}")));
    EXPECT_RESULT(text_fault, "fault F11 Text record 1 byte 1 End after 1", log_event("["));
    EXPECT_RESULT(field_fault, "fault F12 Field record 1 . WrongKind after 2", log_call("[]"));
    EXPECT_RESULT(field_fault, "fault F12 Field record 1 type Missing after 2", write_event("{}"));
    EXPECT_SAME(before, state_of(session));
}

void test_calls()
{
    Session session = std::move(begun().session);
    const std::string accept = accept_of({"O1"}, {task_of("T1", "A1")});
    EXPECT_RESULT(Status::good, accept, session.check(accept));
    EXPECT(session.entries() == 3 && session.offer_count() == 3);
    EXPECT_RESULT(Status::good, accept, session.said(" " + accept_of({"O1"}, {task_of("T1", "A1", resources_of("1"))})));
    EXPECT(session.entries() == 4 && session.offer_count() == 2);
    const Result checked = session.check(acknowledge_of(text_of(session.owed_at(0))));
    EXPECT_RESULT(Status::good, acknowledge_of(key_of("T1")), session.said(checked.text()));
    EXPECT(session.entries() == 5 && session.owed_count() == 0);
    EXPECT_RESULT(Status::good, "", session.heard(UPDATE));
    EXPECT_RESULT(Status::good, acknowledge_of(key_of("T1")), session.acknowledge(0));
    EXPECT(session.entries() == 7 && session.owed_count() == 0);
    session.broken();
    EXPECT_SAME("8 - F1", state_of(session));
    const std::string body = "{'framework_info':{'user':'root','name':'n','id':{'value':'F1'}}}";
    EXPECT_RESULT(Status::good, json("{'type':'SUBSCRIBE'," + F1 + ",'subscribe':" + body + "}"),
                  session.subscribe(json("{'user':'root','name':'n'}")));
    EXPECT_RESULT(Status::not_subscribed, "refused S1 NotSubscribed record 10", session.said(REVIVE));
    EXPECT_RESULT(Status::good, "", session.heard(SUBSCRIBED));
    EXPECT_RESULT(Status::good, REVIVE, session.said(REVIVE));
    EXPECT_RESULT(Status::good, REVIVE, call(" " + REVIVE + " "));
    EXPECT_SAME("11 connected F1", state_of(session));
}

/// Checks texts that do not fit the first room: they are whole, and are applied once.
void test_growth()
{
    const std::string wide = offer_of("O1", "A1", resources_of("1.0", 1000)), name(5000, 'x');
    const std::string long_call = accept_of({"O1"}, {task_of("T1", "A1", resources_of("1", 1000))});
    const std::string canonical = accept_of({"O1"}, {task_of("T1", "A1", resources_of("1.0", 1000))});
    Session session = *Session::create();
    EXPECT(session.heard(SUBSCRIBED) && session.heard(offers_of({wide})));
    EXPECT_RESULT(Status::good, wide, session.offer_at(0));
    EXPECT_RESULT(Status::good, wide, session.offer("O1"));
    EXPECT_RESULT(Status::good, canonical, session.check(long_call));
    EXPECT(session.entries() == 2);
    EXPECT_RESULT(Status::good, canonical, session.said(long_call));
    EXPECT(session.entries() == 3 && session.offer_count() == 0);
    EXPECT_RESULT(Status::good, canonical, call(long_call));
    EXPECT_RESULT(Status::good, std::to_string(canonical.size() + 1) + "\nC" + canonical, log_call(long_call));
    const std::string event = offers_of({offer_of("O1", "A1", resources_of("1", 1000))}), written = offers_of({wide});
    EXPECT_RESULT(Status::good, std::to_string(written.size()) + "\n" + written, write_event(event));
    EXPECT_RESULT(Status::good, std::to_string(written.size() + 1) + "\nE" + written, log_event(event));
    EXPECT(session.heard(json("{'type':'SUBSCRIBED','subscribed':{'framework_id':{'value':'" + name + "'}}}")));
    EXPECT_RESULT(Status::good, name, session.framework());
}

void test_logs()
{
    History history = begun();
    history.say(accept_of({"O2"}, {task_of("T1", "A1")}));
    history.say(acknowledge_of(key_of("T1")));
    history.session.broken();
    history.append(log_broken());
    history.hear(SUBSCRIBED);
    history.hear(offers_of({offer_of("O4", "A2")}));
    Created<Session> again = Session::replay(history.log);
    EXPECT_RESULT(Status::good, "", again);
    EXPECT_SAME(state_of(history.session), state_of(*again));
    EXPECT_SAME("8 connected F1\n" + offer_of("O4", "A2"), state_of(*again));
    history.append(log_call(accept_of({"O1"})));
    again = Session::replay(history.log);
    EXPECT_RESULT(Status::no_such_offer, "refused S3 NoSuchOffer record 9 index 0", again);
    EXPECT(again->entries() == 0 && again->heard(SUBSCRIBED).status() == Status::bad_pointer);
    EXPECT_RESULT(static_cast<Status>(16), "fault F16 BadEntry record 2 after 6", Session::replay("1\n21\nZ"));
    const Created<Session> session = Session::replay(example("session.log"));
    EXPECT_RESULT(Status::good, "", session);
    EXPECT(session->entries() == 13 && session->connected() && session->offer_count() == 2 && session->owed_count() == 1);
    EXPECT_RESULT(Status::good, "F1", session->framework());
    EXPECT(session->offer("O4"));
    EXPECT_SAME(text_of(session->offer("O5")), text_of(session->offer_at(1)));
    EXPECT_RESULT(Status::good, key_of("T1", "EBESExQVFhcYGRobHB0eHw=="), session->owed_at(0));
}

/// Writes the events of the example again, in chunks, and decodes them.
void test_writing()
{
    const Outcome whole = decode(example("stream.recordio"), Framing::plain, 100000, take_next);
    std::string plain, chunked;
    for (const std::string &text : whole.texts) {
        const Result record = write_event(text), chunk = write_chunk(record.text());
        EXPECT(record && chunk);
        plain.append(record.text());
        chunked.append(chunk.text());
    }
    const Result last = write_chunk({});
    EXPECT_RESULT(Status::good, "0\r\n\r\n", last);
    EXPECT_RESULT(Status::good, "5\r\nhello\r\n", write_chunk("hello"));
    EXPECT(decode(plain, Framing::plain, 100, take_many).texts == whole.texts);
    const Outcome again = decode(chunked.append(last.text()), Framing::chunked, 100, take_many);
    EXPECT(again.texts == whole.texts && again.status == Status::end);
}

void test_fits()
{
    const std::string offers = "[" + offer_of("O1", "A1") + "," + offer_of("O2", "A1") + "]";
    EXPECT_RESULT(Status::good, "", fits(offers, "[" + task_of("T1", "A1", resources_of("2.0")) + "]"));
    EXPECT_RESULT(Status::good, "", fits("[]", "[]"));
    EXPECT_RESULT(Status::exceeds, "refused S6 Exceeds record 1 task 1 resource 1",
                  fits(offers, "[" + task_of("T1", "A1") + "," + task_of("T2", "A1", resources_of("1.0", 2)) + "]"));
    EXPECT_RESULT(field_fault, "fault F12 Field record 1 [0].id Missing after 4", fits("[{}]", "[]"));
    EXPECT_RESULT(text_fault, "fault F11 Text record 2 byte 1 End after 1", fits(offers, "["));
}

template <typename Owner>
constexpr bool is_only_moved = !std::is_copy_constructible_v<Owner> && !std::is_copy_assignable_v<Owner> &&
                               std::is_nothrow_move_constructible_v<Owner> && std::is_nothrow_move_assignable_v<Owner>;

static_assert(is_only_moved<Decoder> && is_only_moved<Session> && is_only_moved<Result> && is_only_moved<Created<Session>>);

template <typename Value, typename = void>
constexpr bool has_text = false;
template <typename Value>
constexpr bool has_text<Value, std::void_t<decltype(std::declval<Value>().text())>> = true;

static_assert(has_text<Result &> && has_text<const Created<Session> &> && !has_text<Result> && !has_text<Created<Session>>);

void test_moves()
{
    std::string_view rest = "20\n{\"type\":\"HEARTBEAT\"}20\n{\"type\":";
    Decoder decoder = *Decoder::create(Framing::plain), other = *Decoder::create(Framing::chunked);
    EXPECT(decoder.next(rest).is_event() && decoder.next(rest).status == Status::more && rest.empty());
    other = std::move(decoder);
    rest = "\"HEARTBEAT\"}";
    EXPECT(decoder.next(rest).status == Status::bad_pointer && rest.size() == 12);
    EXPECT(other.next(rest).type == Type::heartbeat && other.finish().status == Status::end);
    History history = begun();
    const std::string state = state_of(history.session);
    Session session = *Session::create();
    session = std::move(history.session);
    EXPECT_SAME(state, state_of(session));
    EXPECT_SAME("0 - ", state_of(history.session));
    EXPECT_RESULT(Status::bad_pointer, "", history.session.said(REVIVE));
    history.session.broken();
    Result one = session.offer_at(0), two = session.offer_at(1);
    two = std::move(one);
    EXPECT_SAME(offer_of("O1", "A1"), two.text());
    EXPECT_SAME("", one.text());
    EXPECT(two.text().data()[two.text().size()] == '\0' && one.text().data()[0] == '\0');
}

} // namespace

int main(int argument_count, char **arguments)
{
    folder = argument_count > 1 ? arguments[1] : "examples";
    if (example("stream.recordio").empty()) return 2;
    for (const auto test : {test_pieces, test_ends, test_no_text, test_checks, test_getters, test_refusals, test_faults}) test();
    for (const auto test : {test_calls, test_growth, test_logs, test_writing, test_fits, test_moves}) test();
    std::printf("%d passed, %d failed\n", passed, failed);
    return failed == 0 ? 0 : 1;
}
