// A server of real Ice: the interfaces of Office.ice. It prints its port, and ends where its standard input ends. Its words are
// properties of Ice, and of its adapter, `Objects`; --Office.Port=N has it listen there.
#include "mapping.h"
#include <cstdio>
#include <stdexcept>
#include <unistd.h>

using namespace Office;

#ifdef ICE_CPP11_MAPPING
typedef std::mutex Lock;
typedef std::lock_guard<std::mutex> Held;
#else
typedef IceUtil::Mutex Lock;
typedef IceUtil::Mutex::Lock Held;
#endif

static void raise(int sort, const NodeHandle& about)
{
    if (sort == 0)
    {
        throw Refused("as asked");
    }
    if (sort == 1)
    {
        Late late;
        late.why = "too late";
        late.seconds = 7;
        late.more = std::string("much");
        late.about = about;
        throw late;
    }
    throw Hidden(-3);
}

static void failed(int sort)
{
    switch (sort)
    {
        case 0: throw Ice::ObjectNotExistException(__FILE__, __LINE__);
        case 1: throw Ice::FacetNotExistException(__FILE__, __LINE__);
        case 2: throw Ice::OperationNotExistException(__FILE__, __LINE__);
        case 3: throw Ice::TimeoutException(__FILE__, __LINE__);
        case 4: throw Ice::UnknownLocalException(__FILE__, __LINE__, "a \"local\" one");
        case 5: throw Ice::UnknownUserException(__FILE__, __LINE__, "::Office::Odd");
        case 6: throw Ice::UnknownException(__FILE__, __LINE__, "as said\tso");
        default: throw std::runtime_error("odd");
    }
}

class DeskServant : public Desk
{
    Lock lock;
    int number;
    Texts noted;

public:
    DeskServant() : number(0) {}

    virtual std::string title(const Ice::Current&) { return "a desk"; }

    virtual Color scalars(bool flag, Ice::Byte small, Ice::Short low, Ice::Int plain, Ice::Long large, IN(std::string) text, Color color,
                          bool& flagOut, Ice::Byte& smallOut, Ice::Short& lowOut, Ice::Int& plainOut, Ice::Long& largeOut,
                          std::string& textOut, const Ice::Current&)
    {
        flagOut = flag, smallOut = small, lowOut = low, plainOut = plain, largeOut = large, textOut = text;
        return color;
    }

    virtual Lines lists(IN(Bytes) data, IN(Bits) bits, IN(Ints) numbers, IN(Texts) words, IN(Colors) colors, IN(Lines) rows,
                        Bytes& dataOut, Bits& bitsOut, Ints& numbersOut, Texts& wordsOut, Colors& colorsOut, const Ice::Current&)
    {
        dataOut = data, bitsOut = bits, numbersOut = numbers, wordsOut = words, colorsOut = colors;
        return rows;
    }

    virtual Places maps(IN(Counts) counts, IN(Named) named, IN(Liked) liked, IN(Places) places, Counts& countsOut, Named& namedOut,
                        Liked& likedOut, const Ice::Current&)
    {
        countsOut = counts, namedOut = named, likedOut = liked;
        return places;
    }

    virtual PROXY(Desk) proxies(IN(PROXY(Ice::Object)) any, IN(PROXY(Thing)) thing, IN(PROXY(Desk)) desk, PROXY(Ice::Object)& anyOut,
                                PROXY(Thing)& thingOut, const Ice::Current&)
    {
        anyOut = any, thingOut = thing;
        return desk;
    }

    virtual NodeHandle graph(IN(AnyPtr) any, IN(Nodes) nodes, IN(Index) index, IN(NodeHandle) node, AnyPtr& anyOut, Nodes& nodesOut,
                             Index& indexOut, const Ice::Current&)
    {
        anyOut = any, nodesOut = nodes, indexOut = index;
        return node;
    }

    virtual NodeHandle sliced(IN(NodeHandle) node, const Ice::Current&) { return node; }

    virtual NodeHandle compact(IN(NodeHandle) node, const Ice::Current&) { return node; }

    virtual OPTIONAL(NodeHandle)
        options(IN(OPTIONAL(bool)) flag, IN(OPTIONAL(Ice::Short)) low, IN(OPTIONAL(Ice::Int)) plain, IN(OPTIONAL(Ice::Long)) large,
                IN(OPTIONAL(Color)) color, IN(std::string) text, IN(OPTIONAL(std::string)) more, IN(OPTIONAL(Point)) point,
                IN(OPTIONAL(Line)) row, IN(OPTIONAL(Bytes)) data, IN(OPTIONAL(Texts)) words, IN(OPTIONAL(Counts)) counts,
                IN(OPTIONAL(Named)) named, IN(OPTIONAL(PROXY(Desk))) desk, IN(OPTIONAL(NodeHandle)) node, OPTIONAL(bool)& flagOut,
                OPTIONAL(Ice::Short)& lowOut, OPTIONAL(Ice::Int)& plainOut, OPTIONAL(Ice::Long)& largeOut, OPTIONAL(Color)& colorOut,
                std::string& textOut, OPTIONAL(std::string)& moreOut, OPTIONAL(Point)& pointOut, OPTIONAL(Line)& rowOut,
                OPTIONAL(Bytes)& dataOut, OPTIONAL(Texts)& wordsOut, OPTIONAL(Counts)& countsOut, OPTIONAL(Named)& namedOut,
                OPTIONAL(PROXY(Desk))& deskOut, const Ice::Current&)
    {
        flagOut = flag, lowOut = low, plainOut = plain, largeOut = large, colorOut = color, textOut = text, moreOut = more;
        pointOut = point, rowOut = row, dataOut = data, wordsOut = words, countsOut = counts, namedOut = named, deskOut = desk;
        return node;
    }

    virtual Ice::Int add(Ice::Int n, const Ice::Current&)
    {
        Held held(lock);
        return number += n;
    }

    virtual Ice::Int total(const Ice::Current&)
    {
        Held held(lock);
        return number;
    }

    virtual void note(IN(std::string) text, const Ice::Current&)
    {
        Held held(lock);
        noted.push_back(text);
    }

    virtual Texts notes(const Ice::Current&)
    {
        Held held(lock);
        return noted;
    }

    virtual Bytes many(Ice::Int count, const Ice::Current&) { return Bytes(count, 0xA5); }

    virtual void refuse(Ice::Int sort, IN(NodeHandle) about, const Ice::Current&) { raise(sort, about); }

    virtual void refuseInCompact(Ice::Int sort, IN(NodeHandle) about, const Ice::Current&) { raise(sort, about); }

    virtual void fail(Ice::Int sort, const Ice::Current&) { failed(sort); }

    virtual void die(const Ice::Current&) { _exit(3); }
};

class CounterServant : public Counter
{
    Lock lock;
    unsigned number;

public:
    CounterServant() : number(0) {}

    virtual Ice::Int add(Ice::Int n, const Ice::Current&)
    {
        Held held(lock);
        return static_cast<Ice::Int>(number += static_cast<unsigned>(n));
    }

    virtual Ice::Int total(const Ice::Current&)
    {
        Held held(lock);
        return static_cast<Ice::Int>(number);
    }
};

class ForestServant : public Forest
{
    Lock lock;
    NodeHandle kept;

public:
    virtual std::string title(const Ice::Current&) { return "a forest"; }

    virtual void put(IN(NodeHandle) tree, const Ice::Current&)
    {
        Held held(lock);
        kept = tree;
    }

    virtual NodeHandle get(const Ice::Current&)
    {
        Held held(lock);
        return kept;
    }
};

class LogServant : public Log
{
    Lock lock;
    std::string kept;

public:
    virtual void put(IN(std::string) text, const Ice::Current&)
    {
        Held held(lock);
        kept = text;
    }

    virtual std::string get(const Ice::Current&)
    {
        Held held(lock);
        return kept;
    }
};

int main(int argc, char** argv)
{
    try
    {
        Ice::InitializationData data;
        data.properties = Ice::createProperties(argc, argv);
        const std::vector<std::string> words(argv + 1, argv + argc);
        data.properties->parseCommandLineOptions("Office", words);
        data.properties->parseCommandLineOptions("Objects", words);
        Ice::CommunicatorHolder holder(data);
        const std::string port = holder->getProperties()->getPropertyWithDefault("Office.Port", "0");
        Ice::ObjectAdapterPtr adapter = holder->createObjectAdapterWithEndpoints("Objects", "tcp -h 127.0.0.1 -p " + port);
        adapter->add(made<DeskServant>(), Ice::stringToIdentity("desk"));
        adapter->add(made<CounterServant>(), Ice::stringToIdentity("counter"));
        adapter->add(made<ForestServant>(), Ice::stringToIdentity("forest"));
        adapter->add(made<LogServant>(), Ice::stringToIdentity("log"));
        adapter->addFacet(made<CounterServant>(), Ice::stringToIdentity("desk"), "back");
        adapter->activate();
        Ice::EndpointInfoPtr info = adapter->getEndpoints()[0]->getInfo();
#ifdef ICE_CPP11_MAPPING
        printf("%d\n", std::dynamic_pointer_cast<Ice::IPEndpointInfo>(info)->port);
#else
        printf("%d\n", Ice::IPEndpointInfoPtr::dynamicCast(info)->port);
#endif
        fflush(stdout);
        char byte;
        while (read(0, &byte, 1) > 0)
        {
        }
    }
    catch (const std::exception& error)
    {
        fprintf(stderr, "server: %s\n", error.what());
        return 1;
    }
    return 0;
}
