
chip/access: chip/made FORCE
	@$(call kept,$@,{read} {written}) || {{ $(call again,$@); \
	  (cd $(ROOT) && $(LAUNCHER) access {words} $(OUT)/chip --apb --jtag >/dev/null && \
	  $(LAUNCHER) sdc {words} $(OUT)/chip --mhz $(MHZ) >/dev/null) && \
	  (cd chip && for kind in access apb tap; do iverilog -g2012 $(MORE) -o $${{kind}}_tb -c {name}_$$kind.f && \
	  vvp -n $${{kind}}_tb | tee $${{kind}}_run.log && $(call passed,{name}_$${{kind}}_tb,$${{kind}}_run.log) || exit 1; done) && \
	  touch $@ && $(call done,$@,{read} {written}); }}

chip/sta.txt: chip/access FORCE
ifeq ($(and $(CELLS),$(TIMED),$(MADE)),)
	@echo "{name}: the timing is looked at where LIBERTY names cells, and sta and yosys are installed" | tee $@
else
	@$(call kept,$@,{written} {timed} $(CELLS) $(MACRO_CELLS) sta.known $@) || {{ $(call again,$@); \
	  (cd chip && $(call timed,{name}_access,{name}_access.v {modules},{name}_boxes.v,{name}_test.sdc,../sta.known)) && \
	  $(call done,$@,{written} {timed} $(CELLS) $(MACRO_CELLS) sta.known $@); }}
endif
