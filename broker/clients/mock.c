/* librdkafka's mock cluster as a process of its own: `mock BROKERS TOPIC`. It prints its bootstrap servers, and ends when its input does. */
#include <librdkafka/rdkafka.h>
#include <librdkafka/rdkafka_mock.h>
#include <stdio.h>
#include <stdlib.h>

int main(int count, char **words) {
    char why[512];
    if (count != 3) {
        fprintf(stderr, "mock BROKERS TOPIC\n");
        return 2;
    }
    rd_kafka_conf_t *settings = rd_kafka_conf_new();
    rd_kafka_conf_set(settings, "log_level", "2", why, sizeof why);
    rd_kafka_t *client = rd_kafka_new(RD_KAFKA_PRODUCER, settings, why, sizeof why);
    if (!client) {
        fprintf(stderr, "mock: %s\n", why);
        return 1;
    }
    int brokers = atoi(words[1]);
    rd_kafka_mock_cluster_t *cluster = rd_kafka_mock_cluster_new(client, brokers);
    if (!cluster || rd_kafka_mock_topic_create(cluster, words[2], 1, brokers)) {
        fprintf(stderr, "mock: no cluster of %s brokers\n", words[1]);
        return 1;
    }
    puts(rd_kafka_mock_cluster_bootstraps(cluster));
    fflush(stdout);
    while (getchar() != EOF) {
    }
    rd_kafka_mock_cluster_destroy(cluster);
    rd_kafka_destroy(client);
    return 0;
}
