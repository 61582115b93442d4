// sarama: produces COUNT records, plain and then idempotent, and reads all of them back.
//
//	sarama ADDRESSES TOPIC COUNT
package main

import (
	"fmt"
	"os"
	"strconv"
	"strings"
	"time"

	"github.com/Shopify/sarama"
)

func must(err error) {
	if err != nil {
		fmt.Println("NO", err)
		os.Exit(1)
	}
}

func produce(addresses []string, topic string, count int, idempotent bool) {
	config := sarama.NewConfig()
	config.Version = sarama.V0_11_0_0
	config.Producer.RequiredAcks = sarama.WaitForAll
	config.Producer.Return.Successes = true
	config.Producer.Idempotent = idempotent
	config.Net.MaxOpenRequests = 1
	producer, err := sarama.NewSyncProducer(addresses, config)
	must(err)
	var messages []*sarama.ProducerMessage
	for number := 0; number < count; number++ {
		value := sarama.StringEncoder(fmt.Sprintf("%t %d", idempotent, number))
		messages = append(messages, &sarama.ProducerMessage{Topic: topic, Value: value})
	}
	must(producer.SendMessages(messages))
	must(producer.Close())
}

func consume(addresses []string, topic string, count int) {
	config := sarama.NewConfig()
	config.Version = sarama.V0_11_0_0
	consumer, err := sarama.NewConsumer(addresses, config)
	must(err)
	partition, err := consumer.ConsumePartition(topic, 0, sarama.OffsetOldest)
	must(err)
	for number := 0; number < 2*count; number++ {
		wanted := fmt.Sprintf("%t %d", number >= count, number%count)
		select {
		case message := <-partition.Messages():
			if string(message.Value) != wanted || message.Offset != int64(number) {
				fmt.Println("NO", message.Offset, string(message.Value), "in place of", wanted)
				os.Exit(1)
			}
		case <-time.After(20 * time.Second):
			fmt.Println("NO: only", number, "records")
			os.Exit(1)
		}
	}
}

func main() {
	addresses, topic := strings.Split(os.Args[1], ","), os.Args[2]
	count, err := strconv.Atoi(os.Args[3])
	must(err)
	produce(addresses, topic, count, false)
	produce(addresses, topic, count, true)
	consume(addresses, topic, count)
}
