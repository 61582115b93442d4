// sarama ADDRESS: produces two records in one batch, without and with a producer id.
package main

import (
	"fmt"
	"os"
	"time"

	"github.com/Shopify/sarama"
)

func main() {
	for _, idempotent := range []bool{false, true} {
		config := sarama.NewConfig()
		config.ClientID = "till"
		config.Version = sarama.V0_11_0_0
		config.Producer.RequiredAcks = sarama.WaitForAll
		config.Producer.Return.Successes = true
		config.Producer.Idempotent = idempotent
		config.Net.MaxOpenRequests = 1
		producer, err := sarama.NewSyncProducer(os.Args[1:], config)
		if err != nil {
			fmt.Println(err)
			continue
		}
		at := time.Unix(1700000000, 123000000)
		fmt.Println(producer.SendMessages([]*sarama.ProducerMessage{
			{Topic: "pay", Value: sarama.StringEncoder("ten"), Timestamp: at},
			{Topic: "pay", Value: sarama.StringEncoder("twenty"), Timestamp: at.Add(time.Second)},
		}))
		producer.Close()
	}
}
