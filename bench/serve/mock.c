/* Serves librdkafka's mock cluster of one broker until its standard input ends, and prints where it listens. */
#include <librdkafka/rdkafka.h>
#include <librdkafka/rdkafka_mock.h>
#include <stdio.h>

static const char *topics[] = {"b", "b0", "b1", "b2", "b3", NULL};

int main(void) {
    char error[512];
    rd_kafka_t *handle = rd_kafka_new(RD_KAFKA_PRODUCER, rd_kafka_conf_new(), error, sizeof error);
    if (!handle) {
        fprintf(stderr, "mock: %s\n", error);
        return 1;
    }
    rd_kafka_mock_cluster_t *cluster = rd_kafka_mock_cluster_new(handle, 1);
    int failed = !cluster;
    for (const char **topic = topics; *topic && !failed; topic++)
        failed = rd_kafka_mock_topic_create(cluster, *topic, 1, 1) != RD_KAFKA_RESP_ERR_NO_ERROR;
    if (failed) {
        fprintf(stderr, "mock: no cluster\n");
        return 1;
    }
    printf("listening on %s\n", rd_kafka_mock_cluster_bootstraps(cluster));
    fflush(stdout);
    while (getchar() != EOF) {
    }
    rd_kafka_mock_cluster_destroy(cluster);
    rd_kafka_destroy(handle);
    return 0;
}
