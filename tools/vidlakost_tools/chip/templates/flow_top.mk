
chip/made: FORCE
	@mkdir -p chip
	@$(call kept,$@,{read} {written}) || {{ $(call again,$@); \
	  (cd $(ROOT) && $(LAUNCHER) top {words} $(OUT)/chip --access{models}{mux} >/dev/null) && touch $@ && $(call done,$@,{read} {written}); }}

chip/passed: chip/made FORCE
	@$(call kept,$@,{written}) || {{ $(call again,$@); \
	  (cd chip && $(call build,{name}_system_tb,passed) && $(call sound,{name}_system_tb) && $(call sides,{name}_system_tb)) && \
	  touch $@ && $(call done,$@,{written}); }}

# what is installed looks at the whole; of a macro it sees the ports alone, whoever wrote its model
chip/lint.txt: chip/made FORCE
ifneq ($(LINTED),)
	@$(call kept,$@,{written} $@) || {{ $(call again,$@); \
	  (cd chip && $(call linted,{name}_system,{modules},{name}_boxes.v)) && $(call done,$@,{written} $@); }}
else
	@echo "{name}: verilator is not installed, so nothing is linted" | tee $@
endif

chip/synthesis.txt: chip/made FORCE
ifneq ($(MADE),)
	@$(call kept,$@,{written} $(CELLS) $@) || {{ $(call again,$@); \
	  (cd chip && $(call synthesized,{name}_system,{modules},{name}_boxes.v)) && $(call done,$@,{written} $(CELLS) $@); }}
else
	@echo "{name}: yosys is not installed, so nothing is synthesized" | tee $@
endif
