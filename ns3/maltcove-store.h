/*
 * maltcove-store.h: the items that wait in a MaltcoveQueueDisc, so that ns-3 counts them. One leaves from any place.
 */
#ifndef MALTCOVE_STORE_H
#define MALTCOVE_STORE_H

#include "ns3/queue-item.h"
#include "ns3/queue.h"

#include <cstdint>
#include <vector>

namespace ns3
{

class MaltcoveStore : public Queue<QueueDiscItem>
{
  public:
    static TypeId GetTypeId();

    /** The place that the next item gets. */
    uint64_t NextPlace() const;
    /** Puts an item at NextPlace. */
    void Put(Ptr<QueueDiscItem> item);
    /** Takes the item from its place, which another may get then. */
    Ptr<QueueDiscItem> Take(uint64_t place);

    bool Enqueue(Ptr<QueueDiscItem> item) override;
    Ptr<QueueDiscItem> Dequeue() override;
    Ptr<QueueDiscItem> Remove() override;
    Ptr<const QueueDiscItem> Peek() const override;

  private:
    std::vector<Iterator> m_places; //!< where in the queue's list the item of each place stands
    std::vector<uint64_t> m_free;   //!< places without an item
};

} // namespace ns3

#endif
