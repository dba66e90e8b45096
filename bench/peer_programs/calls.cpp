// A client of real Ice that takes time: the Counter and the Forest of tests/peer/office/Office.ice, wherever they are.
//
//   calls once PORT                                    one call of `add`, and its result
//   calls add PORT CONNECTIONS OUTSTANDING CALLS       so many calls of `add` over so many connections, each with a thread of its own
//                                                      and with so many calls at once
//   calls routed PORT ROUTER OUTSTANDING CALLS         so many calls of `add` over a session with the Glacier2 router at that port
//   calls tree PORT COUNT CALLS                        a balanced tree of so many nodes, put and got so many times
//
// The line of all but the first has the microseconds that all took together.
#include "mapping.h"
#include <chrono>
#include <condition_variable>
#include <cstdio>
#include <cstdlib>
#include <cstring>
#include <mutex>
#include <thread>
#include <vector>

using namespace Office;

static std::shared_ptr<Ice::ObjectPrx> proxyOf(const Ice::CommunicatorPtr& communicator, const char* name, const char* port)
{
    return communicator->stringToProxy(std::string(name) + ":tcp -h 127.0.0.1 -p " + port);
}

static void addOneByOne(const std::shared_ptr<CounterPrx>& counter, int calls)
{
    for (int at = 0; at < calls; ++at)
    {
        counter->add(1);
    }
}

static void addAtOnce(const std::shared_ptr<CounterPrx>& counter, int calls, int outstanding)
{
    std::mutex lock;
    std::condition_variable changed;
    int open = 0, failed = 0;
    auto end = [&](bool isGood)
    {
        std::lock_guard<std::mutex> held(lock);
        --open;
        failed += !isGood;
        changed.notify_one();
    };
    for (int at = 0; at < calls; ++at)
    {
        {
            std::unique_lock<std::mutex> held(lock);
            changed.wait(held, [&] { return open < outstanding; });
            ++open;
        }
        counter->addAsync(1, [&](int) { end(true); }, [&](std::exception_ptr) { end(false); });
    }
    std::unique_lock<std::mutex> held(lock);
    changed.wait(held, [&] { return open == 0; });
    if (failed)
    {
        throw std::runtime_error("calls failed");
    }
}

static NodeHandle tree(int first, int count)
{
    if (first >= count)
    {
        return nullptr;
    }
    NodeHandle found = std::make_shared<Node>();
    found->value = first;
    found->left = tree(2 * first + 1, count);
    found->right = tree(2 * first + 2, count);
    return found;
}

static int sizeOf(const NodeHandle& of) { return of ? 1 + sizeOf(of->left) + sizeOf(of->right) : 0; }

static void putAndGet(const std::shared_ptr<ForestPrx>& forest, int count, int calls)
{
    NodeHandle whole = tree(0, count);
    for (int at = 0; at < calls; ++at)
    {
        forest->put(whole);
        if (sizeOf(forest->get()) != count)
        {
            throw std::runtime_error("another tree came");
        }
    }
}

// Makes so many calls of the counters together, each counter with a thread of its own.
static void addAll(const std::vector<std::shared_ptr<CounterPrx>>& counters, int outstanding, int calls)
{
    const int connections = static_cast<int>(counters.size());
    std::vector<std::thread> threads;
    auto begun = std::chrono::steady_clock::now();
    for (auto& it : counters)
    {
        threads.emplace_back(
            [&]
            {
                try
                {
                    outstanding == 1 ? addOneByOne(it, calls / connections) : addAtOnce(it, calls / connections, outstanding);
                }
                catch (const std::exception& error)
                {
                    fprintf(stderr, "calls: %s\n", error.what());
                    exit(1);
                }
            });
    }
    for (auto& it : threads)
    {
        it.join();
    }
    auto took = std::chrono::steady_clock::now() - begun;
    printf("%lld\n", static_cast<long long>(std::chrono::duration_cast<std::chrono::microseconds>(took).count()));
}

// Each connection is made before the time runs.
static void add(const Ice::CommunicatorPtr& communicator, char** words)
{
    std::vector<std::shared_ptr<CounterPrx>> counters;
    for (int at = 0; at < atoi(words[1]); ++at)
    {
        auto named = proxyOf(communicator, "counter", words[0])->ice_connectionId(std::to_string(at));
        counters.push_back(Ice::uncheckedCast<CounterPrx>(named));
        counters.back()->ice_ping();
    }
    addAll(counters, atoi(words[2]), atoi(words[3]));
}

// A session is that of the connection that has created it.
static void routed(const Ice::CommunicatorPtr& communicator, char** words)
{
    auto router = Ice::uncheckedCast<Ice::RouterPrx>(proxyOf(communicator, "Glacier2/router", words[1]));
    Ice::OutputStream out(communicator);
    out.startEncapsulation();
    out.write("user");
    out.write("password");
    out.endEncapsulation();
    Ice::ByteSeq arguments, results;
    out.finished(arguments);
    if (!router->ice_invoke("createSession", Ice::OperationMode::Normal, arguments, results))
    {
        throw std::runtime_error("no session");
    }
    auto counter = Ice::uncheckedCast<CounterPrx>(proxyOf(communicator, "counter", words[0])->ice_router(router));
    counter->ice_ping();
    addAll({counter}, atoi(words[2]), atoi(words[3]));
}

static void trees(const Ice::CommunicatorPtr& communicator, char** words)
{
    auto forest = Ice::uncheckedCast<ForestPrx>(proxyOf(communicator, "forest", words[0]));
    forest->ice_ping();
    auto begun = std::chrono::steady_clock::now();
    putAndGet(forest, atoi(words[1]), atoi(words[2]));
    auto took = std::chrono::steady_clock::now() - begun;
    printf("%lld\n", static_cast<long long>(std::chrono::duration_cast<std::chrono::microseconds>(took).count()));
}

int main(int argc, char** argv)
{
    if (argc < 3)
    {
        return 2;
    }
    try
    {
        Ice::CommunicatorHolder holder(argc, argv);
        if (strcmp(argv[1], "once") == 0)
        {
            printf("%d\n", Ice::uncheckedCast<CounterPrx>(proxyOf(holder.communicator(), "counter", argv[2]))->add(1));
        }
        else if (strcmp(argv[1], "add") == 0 && argc == 6)
        {
            add(holder.communicator(), argv + 2);
        }
        else if (strcmp(argv[1], "routed") == 0 && argc == 6)
        {
            routed(holder.communicator(), argv + 2);
        }
        else if (strcmp(argv[1], "tree") == 0 && argc == 5)
        {
            trees(holder.communicator(), argv + 2);
        }
        else
        {
            return 2;
        }
    }
    catch (const std::exception& error)
    {
        fprintf(stderr, "calls: %s\n", error.what());
        return 1;
    }
    return 0;
}
