// A client of real Ice for `ice serve`: calls what it serves of Office.ice, and tells what came otherwise. Its words are properties of
// Ice; --Office.Port=N says where, --Office.Clients=N how many clients there are at once, each with a connection and a thread of its
// own, --Office.Rounds=N how often each adds to the counter, and --Office.Nodes=N how large the tree is that each puts; with
// --Office.Values=1 it makes only those calls of the desk that give their arguments back, which any server of Office.ice has. Its last
// line is `N passed, M failed`.
#include "mapping.h"
#include <cstdio>
#include <pthread.h>
#include <sstream>
#include <vector>

using namespace Office;

#ifdef ICE_CPP11_MAPPING
#    define CLOSE(name) Ice::ConnectionClose::name
#else
#    define CLOSE(name) Ice::ConnectionClose##name
#endif

static pthread_mutex_t counting = PTHREAD_MUTEX_INITIALIZER;
static int passed = 0, missed = 0;

static void see(const char* what, bool isSo)
{
    pthread_mutex_lock(&counting);
    (isSo ? passed : missed) += 1;
    if (!isSo)
    {
        printf("DIFFERS %s\n", what);
        fflush(stdout);
    }
    pthread_mutex_unlock(&counting);
}

#define RAISES(Error, call)                              \
    do                                                   \
    {                                                    \
        try                                              \
        {                                                \
            call;                                        \
            see(#call " raises " #Error, false);         \
        }                                                \
        catch (const Error&)                             \
        {                                                \
            see(#call, true);                            \
        }                                                \
    } while (false)

static NodeHandle node(int value)
{
    NodeHandle found = made<Node>();
    found->value = value;
    return found;
}

static NodeHandle tree(int first, int count)
{
    if (first >= count)
    {
        return NodeHandle();
    }
    NodeHandle found = node(first);
    found->left = tree(2 * first + 1, count);
    found->right = tree(2 * first + 2, count);
    return found;
}

static int sizeOf(const NodeHandle& of) { return of ? 1 + sizeOf(of->left) + sizeOf(of->right) : 0; }

static Line line(const char* name)
{
    Line found;
    found.first.x = -1;
    found.first.y = 2;
    found.last.x = 32767;
    found.last.y = -32768;
    found.name = name;
    return found;
}

struct Client
{
    Ice::CommunicatorPtr communicator;
    std::string at;
    int nodes; // of the tree that is put

    PROXY(Ice::Object) proxy(const std::string& words) const { return communicator->stringToProxy(words + at); }

    void own() const
    {
        PROXY(Ice::Object) desk = proxy("desk");
        desk->ice_ping();
        see("ice_isA", desk->ice_isA("::Office::Desk") && desk->ice_isA("::Office::Thing") && desk->ice_isA("::Ice::Object"));
        see("ice_isA of another", !desk->ice_isA("::Office::Log"));
        see("ice_id", desk->ice_id() == "::Office::Desk");
        std::vector<std::string> ids = desk->ice_ids();
        see("ice_ids", ids.size() == 3 && ids[0] == "::Ice::Object" && ids[1] == "::Office::Desk" && ids[2] == "::Office::Thing");
        see("checkedCast", CHECKED(Desk, desk) && !CHECKED(Log, desk));
        RAISES(Ice::ObjectNotExistException, proxy("nobody")->ice_ping());
        RAISES(Ice::FacetNotExistException, proxy("desk -f back")->ice_ping());
        RAISES(Ice::OperationNotExistException, CAST(Forest, proxy("desk"))->get());
        RAISES(Ice::OperationNotExistException, CAST(Desk, desk)->total());
        see("add of an echo", CAST(Desk, desk)->add(-77) == -77);
    }

    void plain() const
    {
        PROXY(Desk) desk = CAST(Desk, proxy("desk"));
        bool flag;
        Ice::Byte small;
        Ice::Short low;
        Ice::Int number;
        Ice::Long large;
        std::string text;
        Color color = desk->scalars(true, 255, -32768, 2147483647, -5000000000LL, "gr\xc3\xbcn", ENTRY(Color, green), flag, small, low, number, large, text);
        see("scalars", flag && small == 255 && low == -32768 && number == 2147483647 && large == -5000000000LL && text == "gr\xc3\xbcn");
        see("scalars, returned", color == ENTRY(Color, green));
        Bytes data(1000, 7), dataOut;
        Bits bits(3, true), bitsOut;
        Ints numbers(2, -9), numbersOut;
        Texts words(2, "oak"), wordsOut;
        Colors colors(1, ENTRY(Color, blue)), colorsOut;
        Lines rows(2, line("north"));
        see("lists", desk->lists(data, bits, numbers, words, colors, rows, dataOut, bitsOut, numbersOut, wordsOut, colorsOut) == rows);
        see("lists, out", data == dataOut && bits == bitsOut && numbers == numbersOut && words == wordsOut && colors == colorsOut);
        Counts counts, countsOut;
        Named named, namedOut;
        Liked liked, likedOut;
        Places places;
        for (int at = -5; at < 5; ++at)
        {
            counts[at] = at * 7000000000LL;
            Point point;
            point.x = static_cast<Ice::Short>(at * 300);
            point.y = 1;
            places[point] = words;
        }
        named["b"] = line("b");
        named["a"] = line("a");
        liked[ENTRY(Color, red)] = true;
        see("maps", desk->maps(counts, named, liked, places, countsOut, namedOut, likedOut) == places);
        see("maps, out", counts == countsOut && named == namedOut && liked == likedOut);
    }

    void proxies() const
    {
        PROXY(Desk) desk = CAST(Desk, proxy("desk"));
        PROXY(Ice::Object) any = communicator->stringToProxy("a/b -f c -o @ There"), anyOut;
        PROXY(Thing) thing = CAST(Thing, communicator->stringToProxy("thing:tcp -h 127.0.0.1 -p 9 -t 100:tcp -h localhost -p 10 -z")), thingOut;
        PROXY(Desk) came = desk->proxies(any, thing, desk, anyOut, thingOut);
        see("proxies", came->ice_toString() == desk->ice_toString() && anyOut->ice_toString() == any->ice_toString());
        see("proxies, typed", thingOut->ice_toString() == thing->ice_toString());
        came = desk->proxies(PROXY(Ice::Object)(), PROXY(Thing)(), PROXY(Desk)(), anyOut, thingOut);
        see("null proxies", !came && !anyOut && !thingOut);
    }

    void graphs() const
    {
        PROXY(Desk) desk = CAST(Desk, proxy("desk"));
        NodeHandle ring = node(1);
        LeafHandle leaf = made<Leaf>();
        leaf->value = 2;
        leaf->left = ring;
        leaf->color = ENTRY(Color, blue);
        leaf->other = NodeHandle(leaf);
        leaf->kin.push_back(ring);
        leaf->kin.push_back(leaf);
        leaf->note = std::string("a leaf");
        ring->right = leaf;
        Nodes nodes(2, ring), nodesOut;
        Index index, indexOut;
        index["leaf"] = leaf;
        index["none"] = NodeHandle();
        AnyPtr anyOut;
        NodeHandle came = desk->graph(made<Bare>(), nodes, index, leaf, anyOut, nodesOut, indexOut);
        see("graph", came && came->value == 2 && came->left == nodesOut[0] && nodesOut[0] == nodesOut[1] && came->left->right == came);
        see("graph, in a dictionary", indexOut.size() == 2 && indexOut["leaf"] == came && !indexOut["none"]);
        see("graph, any", anyOut && anyOut->ice_id() == "::Office::Bare" && came->ice_id() == "::Office::Leaf");
        see("graph, optional", came->note && *came->note == "a leaf" && !came->left->note);
        NodeHandle sliced = desk->sliced(tree(0, 300)), compact = desk->compact(tree(0, 300));
        see("trees in both formats", sizeOf(sliced) == 300 && sizeOf(compact) == 300);
        see("no tree", !desk->sliced(NodeHandle()));
    }

    void stores(int rounds) const
    {
        PROXY(Counter) counter = CAST(Counter, proxy("counter"));
        Ice::Context context;
        context["who"] = "a client";
        for (int at = 0; at < rounds; ++at)
        {
            counter->add(1);
            counter->add(2, context);
        }
        see("total", counter->total() >= 3 * rounds);
        PROXY(Forest) forest = CAST(Forest, proxy("forest"));
        forest->put(tree(0, nodes));
        see("a tree that was put", sizeOf(forest->get()) == nodes);
        Ice::ByteSeq none, came;
        RAISES(Ice::UnknownLocalException, counter->ice_invoke("add", MODE(Normal), none, came));
        RAISES(Ice::UnknownLocalException, counter->ice_invoke("total", MODE(Normal), none, came));
        RAISES(Ice::OperationNotExistException, counter->ice_invoke("absent", MODE(Normal), none, came));
    }

    void noReplies(const std::string& name) const
    {
        PROXY(Log) log = CAST(Log, proxy(name));
        CAST(Log, log->ice_oneway())->put("one");
        CAST(Log, proxy("nobody")->ice_oneway())->put("lost");
        see("oneway", log->get() == "one");
        PROXY(Log) batch = CAST(Log, log->ice_batchOneway());
        batch->put("two");
        batch->put("three");
        batch->ice_flushBatchRequests();
        see("batch", log->get() == "three");
        log->ice_getConnection()->heartbeat();
        see("a call behind a heartbeat", log->get() == "three");
    }

    // A connection that is closed by the client, and a call after it.
    void again() const
    {
        PROXY(Counter) counter = CAST(Counter, proxy("counter"));
        counter->ice_ping();
        counter->ice_getConnection()->close(CLOSE(GracefullyWithWait));
        see("a call after a close", counter->total() >= 0);
    }
};

// Goes through all, by a communicator of its own.
struct Run
{
    int number, rounds, nodes;
    bool isOfValues;
    std::string at;
    std::vector<std::string> words;
    pthread_t thread;

    void go()
    {
        Ice::InitializationData data;
        data.properties = Ice::createProperties();
        data.properties->parseCommandLineOptions("Ice", words);
        Ice::CommunicatorHolder holder(data);
        Client client;
        client.communicator = holder.communicator();
        client.at = at;
        client.nodes = nodes;
        std::ostringstream log;
        log << "log" << number;
        client.plain();
        client.proxies();
        client.graphs();
        if (isOfValues)
        {
            return;
        }
        client.own();
        client.stores(rounds);
        client.noReplies(log.str());
        client.again();
    }
};

static void* start(void* run)
{
    try
    {
        static_cast<Run*>(run)->go();
    }
    catch (const std::exception& error)
    {
        see(error.what(), false);
    }
    return 0;
}

int main(int argc, char** argv)
{
    Ice::PropertiesPtr properties = Ice::createProperties();
    properties->parseCommandLineOptions("Office", std::vector<std::string>(argv + 1, argv + argc));
    std::vector<Run> runs(properties->getPropertyAsIntWithDefault("Office.Clients", 1));
    for (size_t at = 0; at < runs.size(); ++at)
    {
        runs[at].number = static_cast<int>(at);
        runs[at].rounds = properties->getPropertyAsIntWithDefault("Office.Rounds", 10);
        runs[at].isOfValues = properties->getPropertyAsInt("Office.Values") > 0;
        runs[at].nodes = properties->getPropertyAsIntWithDefault("Office.Nodes", 1000);
        runs[at].at = ":tcp -h 127.0.0.1 -p " + properties->getProperty("Office.Port");
        runs[at].words.assign(argv + 1, argv + argc);
        pthread_create(&runs[at].thread, 0, start, &runs[at]);
    }
    for (size_t at = 0; at < runs.size(); ++at)
    {
        pthread_join(runs[at].thread, 0);
    }
    printf("%d passed, %d failed\n", passed, missed);
    return missed ? 1 : 0;
}
