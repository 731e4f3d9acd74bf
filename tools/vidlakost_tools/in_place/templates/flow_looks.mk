
# what other tools say of the module @@{module}
@@{folder}/lint.txt: @@{after} FORCE
ifneq ($(LINTED),)
	@mkdir -p @@{folder}
	@$(call kept,$@,@@{files} $@) || { $(call again,$@); \
	  (cd @@{folder} && $(call linted,@@{module},@@{modules},@@{inner})) && $(call done,$@,@@{files} $@); }
else
	@mkdir -p @@{folder} && echo "@@{module}: verilator is not installed, so nothing is linted" | tee $@
endif

@@{folder}/synthesis.txt: @@{after} FORCE
ifneq ($(MADE),)
	@mkdir -p @@{folder}
	@$(call kept,$@,@@{files} $(CELLS) $@) || { $(call again,$@); \
	  (cd @@{folder} && $(call synthesized,@@{module},@@{modules},@@{inner})) && $(call done,$@,@@{files} $(CELLS) $@); }
else
	@mkdir -p @@{folder} && echo "@@{module}: yosys is not installed, so nothing is synthesized" | tee $@
endif
