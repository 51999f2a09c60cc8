/*
 * maltcove-queue-disc.h: a queue disc for ns-3 over the scheduler Maltcove.
 */
#ifndef MALTCOVE_QUEUE_DISC_H
#define MALTCOVE_QUEUE_DISC_H

#include "ns3/nstime.h"
#include "ns3/queue-disc.h"

#include <cstdint>
#include <maltcove.h>
#include <string>
#include <vector>

namespace ns3
{

class MaltcoveStore;

/**
 * FQ-CoDel (RFC 8290) as Maltcove schedules it.
 *
 * The attributes that FqCoDelQueueDisc has too have the same names, meanings and standard values: UseEcn, CeThreshold,
 * Interval, Target, MaxSize, Flows, DropBatchSize and Perturbation. Mtu and MemoryLimit are this disc's own.
 *
 * Without a packet filter the scheduler finds an item's flow by a hash of its five-tuple, and Perturbation is the seed
 * of that hash. With filters the flow is what they answer, modulo Flows, and an item that none knows is dropped.
 */
class MaltcoveQueueDisc : public QueueDisc
{
  public:
    static TypeId GetTypeId();

    MaltcoveQueueDisc();
    ~MaltcoveQueueDisc() override;

    /** Sets the bytes of a turn. With 0, the start value, they are the device's MTU. */
    void SetQuantum(uint32_t quantum);
    uint32_t GetQuantum() const;

    /** The statistics of the scheduler itself. The disc has to be initialized. */
    maltcove_totals_t GetTotals() const;

    // Reasons for dropping and for marking, the first five as in ns-3's own discs
    static constexpr const char* UNCLASSIFIED_DROP = "Unclassified drop";
    static constexpr const char* OVERLIMIT_DROP = "Overlimit drop";
    static constexpr const char* TARGET_EXCEEDED_DROP = "Target exceeded drop";
    static constexpr const char* TARGET_EXCEEDED_MARK = "Target exceeded mark";
    static constexpr const char* CE_THRESHOLD_EXCEEDED_MARK = "CE threshold exceeded mark";
    /** The scheduler refused the item, as its length is 0 or more than 65535 bytes. */
    static constexpr const char* REFUSED_DROP = "Refused drop";

  protected:
    void DoDispose() override;

  private:
    bool DoEnqueue(Ptr<QueueDiscItem> item) override;
    Ptr<QueueDiscItem> DoDequeue() override;
    bool CheckConfig() override;
    void InitializeParams() override;

    /** The parameters in the words of tc-fq_codel. */
    std::string Words() const;
    /** The MTU of the device that the disc stands before, or 0 where there is none. */
    uint32_t DeviceMtu() const;
    /** Hands the item to the scheduler with that tag. Answers what the scheduler answers. */
    int Hand(Ptr<QueueDiscItem> item, uint64_t tag, int32_t flow, maltcove_admitted& admitted);
    /** Tells ns-3 of the drops that the scheduler made in its last call. */
    void ReadDrops();

    bool m_useEcn;
    Time m_ceThreshold;
    std::string m_interval;
    std::string m_target;
    uint32_t m_flows;
    uint32_t m_dropBatchSize;
    uint32_t m_perturbation;
    uint32_t m_quantum;
    uint32_t m_mtu;
    uint64_t m_memoryLimit;

    mutable maltcove m_scheduler; //!< it holds no item; a tag is a place of the store
    Ptr<MaltcoveStore> m_store;
};

} // namespace ns3

#endif
