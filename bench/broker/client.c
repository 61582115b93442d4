/* A client for bench/broker: produces, or consumes, messages of 100 bytes, and prints seconds and latencies.
 *
 *     client produce SERVERS TOPIC COUNT LINGER RATE   an idempotent producer with acks=all; RATE messages a second, 0 for as many as go
 *     client consume SERVERS TOPIC COUNT ISOLATION     from offset 0 on
 *
 * It prints `SECONDS P50 P99`, of which the latter two are milliseconds from a message's call to its acknowledgement; a consumer's are 0. */
#include <librdkafka/rdkafka.h>
#include <stdio.h>
#include <stdlib.h>
#include <string.h>
#include <time.h>

enum { SIZE = 100 };

static long wanted, acknowledged, failed;
static double *latencies;

static double now(void) {
    struct timespec time;
    clock_gettime(CLOCK_MONOTONIC, &time);
    return time.tv_sec + time.tv_nsec / 1e9;
}

static void ends(const char *why) {
    fprintf(stderr, "client: %s\n", why);
    exit(1);
}

static void set(rd_kafka_conf_t *settings, const char *name, const char *value) {
    char why[512];
    if (rd_kafka_conf_set(settings, name, value, why, sizeof why))
        ends(why);
}

/* Each value begins with the time of its call. */
static void told(rd_kafka_t *client, const rd_kafka_message_t *message, void *opaque) {
    double at;
    (void)client, (void)opaque;
    if (message->err) {
        if (!failed++)
            fprintf(stderr, "client: %s\n", rd_kafka_err2str(message->err));
        return;
    }
    memcpy(&at, message->payload, sizeof at);
    if (acknowledged < wanted)
        latencies[acknowledged] = now() - at;
    acknowledged++;
}

static void produces(rd_kafka_t *client, const char *topic) {
    char value[SIZE] = {0};
    const double at = now();
    memcpy(value, &at, sizeof at);
    while (rd_kafka_producev(client, RD_KAFKA_V_TOPIC(topic), RD_KAFKA_V_PARTITION(0), RD_KAFKA_V_VALUE(value, SIZE),
                             RD_KAFKA_V_MSGFLAGS(RD_KAFKA_MSG_F_COPY), RD_KAFKA_V_END) == RD_KAFKA_RESP_ERR__QUEUE_FULL)
        rd_kafka_poll(client, 1);
}

static void waits(rd_kafka_t *client, long count) {
    while (acknowledged + failed < count)
        rd_kafka_poll(client, 10);
    if (failed)
        ends("not all were acknowledged");
}

static int by_size(const void *one, const void *other) {
    const double a = *(const double *)one, b = *(const double *)other;
    return (a > b) - (a < b);
}

static void produce(rd_kafka_conf_t *settings, char **words) {
    char why[512];
    const char *topic = words[3];
    const double rate = atof(words[6]);
    set(settings, "linger.ms", words[5]);
    set(settings, "enable.idempotence", "true");
    set(settings, "queue.buffering.max.messages", "1000000");
    rd_kafka_conf_set_dr_msg_cb(settings, told);
    rd_kafka_t *client = rd_kafka_new(RD_KAFKA_PRODUCER, settings, why, sizeof why);
    if (!client)
        ends(why);
    produces(client, topic); /* the first one waits for connections */
    waits(client, 1);
    acknowledged = 0;
    const double began = now();
    for (long i = 0; i < wanted; i++) {
        while (rate > 0 && now() < began + i / rate)
            rd_kafka_poll(client, 0);
        produces(client, topic);
        if (i % 256 == 0)
            rd_kafka_poll(client, 0);
    }
    waits(client, wanted);
    const double seconds = now() - began;
    qsort(latencies, wanted, sizeof *latencies, by_size);
    printf("%.6f %.3f %.3f\n", seconds, 1e3 * latencies[wanted / 2], 1e3 * latencies[wanted * 99 / 100]);
    rd_kafka_destroy(client);
}

static void consume(rd_kafka_conf_t *settings, char **words) {
    char why[512];
    long count = 0;
    double began = 0;
    set(settings, "group.id", "bench");
    set(settings, "enable.auto.commit", "false");
    set(settings, "isolation.level", words[5]);
    rd_kafka_t *client = rd_kafka_new(RD_KAFKA_CONSUMER, settings, why, sizeof why);
    if (!client)
        ends(why);
    rd_kafka_topic_partition_list_t *parts = rd_kafka_topic_partition_list_new(1);
    rd_kafka_topic_partition_list_add(parts, words[3], 0)->offset = 0;
    rd_kafka_assign(client, parts);
    rd_kafka_queue_t *queue = rd_kafka_queue_get_consumer(client);
    const double patience = now() + 60;
    while (count < wanted && now() < patience) {
        rd_kafka_message_t *messages[1000];
        const ssize_t came = rd_kafka_consume_batch_queue(queue, 1000, messages, 1000);
        for (ssize_t i = 0; i < came; i++) {
            if (!messages[i]->err && !count++)
                began = now();
            rd_kafka_message_destroy(messages[i]);
        }
    }
    const double seconds = now() - began;
    if (count < wanted)
        ends("not all came within a minute");
    printf("%.6f 0 0\n", seconds);
    rd_kafka_queue_destroy(queue);
    rd_kafka_topic_partition_list_destroy(parts);
    rd_kafka_consumer_close(client);
    rd_kafka_destroy(client);
}

int main(int count, char **words) {
    const int produced = count == 7 && !strcmp(words[1], "produce");
    if (!produced && !(count == 6 && !strcmp(words[1], "consume")))
        ends("produce SERVERS TOPIC COUNT LINGER RATE, or consume SERVERS TOPIC COUNT ISOLATION");
    wanted = atol(words[4]);
    latencies = calloc(wanted, sizeof *latencies);
    if (wanted < 1 || !latencies)
        ends("COUNT is a number from 1 on");
    rd_kafka_conf_t *settings = rd_kafka_conf_new();
    set(settings, "bootstrap.servers", words[2]);
    set(settings, "log_level", "2");
    if (produced)
        produce(settings, words);
    else
        consume(settings, words);
    free(latencies);
    return 0;
}
