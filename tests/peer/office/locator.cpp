// A locator of real Ice. It prints its port, and ends where its standard input ends. Its words are properties of Ice;
// --Office.Target=N is the port of a server of Office.ice, which it tells.
#include "mapping.h"
#include <cstdio>
#include <stdexcept>
#include <unistd.h>

typedef PROXY(Ice::Object) AnyProxy;

class Places : public Ice::Locator
{
    Ice::CommunicatorPtr communicator;
    std::string target;

    AnyProxy at(const std::string& words) const { return communicator->stringToProxy(words); }

    AnyProxy adapter(const std::string& id) const
    {
        if (id == "Desks")
        {
            return at("dummy" + target);
        }
        if (id == "Behind")
        {
            return at("dummy @ Desks");
        }
        if (id == "Null")
        {
            return AnyProxy();
        }
        if (id == "Refused")
        {
            throw Office::Refused("as asked");
        }
        if (id == "Missing")
        {
            throw Ice::ObjectNotExistException(__FILE__, __LINE__);
        }
        if (id == "Unknown")
        {
            throw Ice::UnknownException(__FILE__, __LINE__, "as \"said\"");
        }
        if (id == "Odd")
        {
            throw std::runtime_error("odd");
        }
        throw Ice::AdapterNotFoundException();
    }

    AnyProxy object(const Ice::Identity& id) const
    {
        if (id.name == "desk" || (id.name == "counter" && id.category == "other"))
        {
            return at(id.name + target);
        }
        if (id.name == "counter")
        {
            return at("counter @ Desks");
        }
        if (id.name == "forest")
        {
            return at("forest @ Behind");
        }
        if (id.name == "lost")
        {
            return at("lost @ Nowhere");
        }
        if (id.name == "log")
        {
            return AnyProxy();
        }
        throw Ice::ObjectNotFoundException();
    }

public:
    Places(const Ice::CommunicatorPtr& communicator, const std::string& port)
        : communicator(communicator), target(":tcp -h 127.0.0.1 -p " + port)
    {
    }

#ifdef ICE_CPP11_MAPPING
    typedef std::function<void(const AnyProxy&)> Response;
    typedef std::function<void(std::exception_ptr)> Failure;

    virtual void findObjectByIdAsync(Ice::Identity id, Response response, Failure, const Ice::Current&) const
    {
        response(object(id));
    }

    virtual void findAdapterByIdAsync(std::string id, Response response, Failure, const Ice::Current&) const
    {
        response(adapter(id));
    }
#else
    virtual void findObjectById_async(const Ice::AMD_Locator_findObjectByIdPtr& call, const Ice::Identity& id, const Ice::Current&) const
    {
        call->ice_response(object(id));
    }

    virtual void findAdapterById_async(const Ice::AMD_Locator_findAdapterByIdPtr& call, const std::string& id, const Ice::Current&) const
    {
        call->ice_response(adapter(id));
    }
#endif

    virtual PROXY(Ice::LocatorRegistry) getRegistry(const Ice::Current&) const { return PROXY(Ice::LocatorRegistry)(); }
};

int main(int argc, char** argv)
{
    try
    {
        Ice::InitializationData data;
        data.properties = Ice::createProperties(argc, argv);
        data.properties->parseCommandLineOptions("Office", std::vector<std::string>(argv + 1, argv + argc));
        Ice::CommunicatorHolder holder(data);
        Ice::ObjectAdapterPtr adapter = holder->createObjectAdapterWithEndpoints("locator", "tcp -h 127.0.0.1");
        const std::string port = holder->getProperties()->getProperty("Office.Target");
#ifdef ICE_CPP11_MAPPING
        adapter->add(std::make_shared<Places>(holder.communicator(), port), Ice::stringToIdentity("Office/Locator"));
#else
        adapter->add(new Places(holder.communicator(), port), Ice::stringToIdentity("Office/Locator"));
#endif
        adapter->activate();
        Ice::EndpointInfoPtr info = adapter->getEndpoints()[0]->getInfo();
#ifdef ICE_CPP11_MAPPING
        printf("%d\n", std::dynamic_pointer_cast<Ice::IPEndpointInfo>(info)->port);
#else
        printf("%d\n", Ice::IPEndpointInfoPtr::dynamicCast(info)->port);
#endif
        fflush(stdout);
        char byte;
        while (read(0, &byte, 1) > 0)
        {
        }
    }
    catch (const std::exception& error)
    {
        fprintf(stderr, "locator: %s\n", error.what());
        return 1;
    }
    return 0;
}
