"""A bank: it takes what customers order, and books each transfer exactly once.

A transfer is a debit, a credit, and the bank's place among the orders. The three are written in one transaction. So whoever reads
with read_committed, as the auditor does, sees a transfer as a whole or not at all, whatever becomes of the bank meanwhile.

    python3 bank.py bank.json     # properties by which confluent-kafka connects, as {"bootstrap.servers": "127.0.0.1:9092"}
"""

import json
import sys

from confluent_kafka import Consumer, KafkaError, KafkaException, Producer, TopicPartition

ORDERS, DEBITS, CREDITS = "orders", "debits", "credits"
GROUP, TRANSACTIONS = "bank", "bank-0"
# Milliseconds after which the broker takes a silent bank out of its group, and aborts a transaction that it left open.
SESSION_TIME, TRANSACTION_TIME = 10_000, 60_000
WAIT = 30  # seconds, at most, for the broker
OVER = 3  # the status of a bank that can't go on, as one whose place another has taken


def transfer(payer, payee, amount):
    """What a customer orders, as the value of a record."""
    return json.dumps({"payer": payer, "payee": payee, "amount": amount})


class Bank:
    """An instance of the bank. One at a time can book."""

    def __init__(self, properties):
        writing = {"transactional.id": TRANSACTIONS, "transaction.timeout.ms": TRANSACTION_TIME}
        reading = {
            "group.id": GROUP,
            "session.timeout.ms": SESSION_TIME,
            "isolation.level": "read_committed",
            "auto.offset.reset": "earliest",
            "enable.auto.commit": False,  # the transactions hold the bank's place
        }
        self.producer = Producer({**properties, **writing})
        self.producer.init_transactions(WAIT)  # now an older instance is fenced, and what it left open is aborted
        self.producer.list_topics(timeout=WAIT)  # else librdkafka looks for a topic a second after its first record
        self.consumer = Consumer({**properties, **reading})
        self.consumer.subscribe([ORDERS])

    def take(self, within=WAIT):
        """The next order, or None where none comes within so many seconds."""
        message = self.consumer.poll(within)
        if message is not None and message.error():
            raise KafkaException(message.error())
        return message

    def book(self, order):
        """Writes the place after an order, its debit and its credit into a transaction, which stays open."""
        asked = json.loads(order.value())
        place = TopicPartition(order.topic(), order.partition(), order.offset() + 1)
        self.producer.begin_transaction()
        # The place comes first. Were it refused that the debit is written, librdkafka would abort a transaction of which the broker
        # knows nothing, and take the answer for the producer's end.
        self.producer.send_offsets_to_transaction([place], self.consumer.consumer_group_metadata(), WAIT)
        self.producer.produce(DEBITS, str(asked["amount"]), asked["payer"])
        self.producer.produce(CREDITS, str(asked["amount"]), asked["payee"])
        self.producer.flush(WAIT)

    def commit(self):
        """Ends the transaction well."""
        self.producer.commit_transaction(WAIT)

    def give_back(self, order):
        """Ends the transaction without a trace, and has the order taken once more."""
        self.producer.abort_transaction(WAIT)
        self.consumer.seek(TopicPartition(order.topic(), order.partition(), order.offset()))

    def work(self, within=WAIT):
        """Takes an order and books it. Gives the order, or None where none came or it couldn't be booked, which is tried again then."""
        order = self.take(within)
        if order is None:
            return None
        try:
            self.book(order)
            self.commit()
        except KafkaException as fault:
            if not fault.args[0].txn_requires_abort():
                raise
            self.give_back(order)
            return None
        return order

    def close(self):
        """Leaves the group: another instance can come at once."""
        self.consumer.close()


class Auditor:
    """Reads the books as they stand: what is committed, and nothing else."""

    def __init__(self, properties):
        reading = {"group.id": "audit", "isolation.level": "read_committed", "enable.auto.commit": False, "enable.partition.eof": True}
        self.consumer = Consumer({**properties, **reading})
        self.consumer.list_topics(timeout=WAIT)

    def books(self):
        """The entries of the debits and of the credits, each an account and an amount."""
        entries = {DEBITS: [], CREDITS: []}
        self.consumer.assign([TopicPartition(topic, 0, 0) for topic in entries])
        ends = set()
        while ends != {*entries}:
            message = self.consumer.poll(WAIT)
            if message is None:
                raise TimeoutError(f"the books don't come within {WAIT} seconds")
            if message.error() is None:
                entries[message.topic()].append((message.key().decode(), int(message.value())))
            elif message.error().code() == KafkaError._PARTITION_EOF:
                ends.add(message.topic())
            else:
                raise KafkaException(message.error())
        return entries

    def close(self):
        """Reads no more."""
        self.consumer.close()


def run(bank):
    """Books what comes, until another bank takes its place. Whoever started it starts the next one."""
    try:
        while True:
            bank.work()
    except KafkaException as fault:
        if not fault.args[0].fatal():
            raise
        print(f"bank: {fault.args[0].str()}", file=sys.stderr)
        sys.exit(OVER)


if __name__ == "__main__":
    with open(sys.argv[1], encoding="utf-8") as file:
        run(Bank(json.load(file)))
