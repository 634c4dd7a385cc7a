# `make spark` checks Ada sources as one program. In a Makefile:
#
#     SPARK_SOURCES = $(wildcard src/*.ads src/*.adb)
#     include HERE/editors/make/spark.mk
SPARK_SOURCES ?= $(wildcard *.ads *.adb)
SPARK_SHOW ?= spark-show

.PHONY: spark
spark:
	$(SPARK_SHOW) --order $(SPARK_SOURCES)
