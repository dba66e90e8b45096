// What the two mappings of Ice for C++ say differently. Which one it is is the compiler's option ICE_CPP11_MAPPING.
#include <Ice/Ice.h>
#include <Office.h>

#ifdef ICE_CPP11_MAPPING
#    define IN(...) __VA_ARGS__
#    define OPTIONAL(...) Ice::optional<__VA_ARGS__>
#    define PTR(type) std::shared_ptr<type>
#    define PROXY(type) std::shared_ptr<type##Prx>
#    define ENTRY(type, name) type::name
#    define MODE(name) Ice::OperationMode::name
typedef std::shared_ptr<Ice::Value> AnyPtr;
template<class C> std::shared_ptr<C> made() { return std::make_shared<C>(); }
template<class P, class Q> std::shared_ptr<P> cast(const std::shared_ptr<Q>& proxy) { return Ice::uncheckedCast<P>(proxy); }
#    define CAST(type, proxy) cast<type##Prx>(proxy)
#    define CHECKED(type, proxy) Ice::checkedCast<type##Prx>(proxy)
#else
#    define IN(...) const __VA_ARGS__&
#    define OPTIONAL(...) IceUtil::Optional<__VA_ARGS__>
#    define PTR(type) type##Ptr
#    define PROXY(type) type##Prx
#    define ENTRY(type, name) name
#    define MODE(name) Ice::name
typedef Ice::ObjectPtr AnyPtr;
template<class C> IceUtil::Handle<C> made() { return new C; }
#    define CAST(type, proxy) type##Prx::uncheckedCast(proxy)
#    define CHECKED(type, proxy) type##Prx::checkedCast(proxy)
#endif

typedef PTR(Office::Node) NodeHandle;
typedef PTR(Office::Leaf) LeafHandle;
