/*
 * maltcove-store.cc: the items that wait in a MaltcoveQueueDisc.
 */
#include "maltcove-store.h"

#include "ns3/abort.h"

namespace ns3
{

NS_OBJECT_ENSURE_REGISTERED(MaltcoveStore);

TypeId
MaltcoveStore::GetTypeId()
{
    static TypeId tid = TypeId("ns3::MaltcoveStore")
                            .SetParent<Queue<QueueDiscItem>>()
                            .SetGroupName("TrafficControl")
                            .AddConstructor<MaltcoveStore>();
    return tid;
}

uint64_t
MaltcoveStore::NextPlace() const
{
    return m_free.empty() ? m_places.size() : m_free.back();
}

void
MaltcoveStore::Put(Ptr<QueueDiscItem> item)
{
    const uint64_t place = NextPlace();
    if (m_free.empty())
    {
        m_places.emplace_back();
    }
    else
    {
        m_free.pop_back();
    }
    // its size is no limit: the scheduler has the limits
    NS_ABORT_UNLESS(DoEnqueue(GetContainer().end(), item, m_places[place]));
}

Ptr<QueueDiscItem>
MaltcoveStore::Take(uint64_t place)
{
    m_free.push_back(place);
    return DoDequeue(m_places.at(place));
}

bool
MaltcoveStore::Enqueue(Ptr<QueueDiscItem> item)
{
    Put(item);
    return true;
}

// The base class takes items out so at the end alone, after which no place is asked for.
Ptr<QueueDiscItem>
MaltcoveStore::Dequeue()
{
    return DoDequeue(GetContainer().begin());
}

Ptr<QueueDiscItem>
MaltcoveStore::Remove()
{
    return DoRemove(GetContainer().begin());
}

Ptr<const QueueDiscItem>
MaltcoveStore::Peek() const
{
    return DoPeek(GetContainer().begin());
}

} // namespace ns3
