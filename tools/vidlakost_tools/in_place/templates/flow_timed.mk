
@@{folder}/sta.txt: chip/access FORCE
	@mkdir -p @@{folder}
ifeq ($(and $(CELLS),$(TIMED),$(MADE)),)
	@echo "@@{module}: the timing is looked at where LIBERTY names cells, and sta and yosys are installed" | tee $@
else
	@$(call kept,$@,@@{files} @@{constraints} $(CELLS) $(MACRO_CELLS) sta.known $@) || { $(call again,$@); \
	  (cd @@{folder} && \
	  $(call timed,@@{module},@@{modules},@@{inner},@@{read},<(sed -n 's/^@@{folder}://p' ../sta.known))) && \
	  $(call done,$@,@@{files} @@{constraints} $(CELLS) $(MACRO_CELLS) sta.known $@); }
endif
