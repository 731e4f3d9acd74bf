
# the memory @@{name} in its place
@@{name}/passed: chip/made FORCE
	@mkdir -p @@{name}
	@$(call kept,$@,@@{bench}) || { $(call again,$@); \
	  (sed 's,^[^/],../chip/&,' chip/@@{module}.f >@@{name}/files.f && \
	  cd @@{name} && $(call simulate,@@{module}_tb,passed)) && touch $@ && $(call done,$@,@@{bench}); }

@@{name}/gates: @@{name}/passed FORCE
ifneq ($(MADE),)
	@$(call kept,$@,@@{bench} @@{boxes} $(CELLS)) || { $(call again,$@); \
	  (cd @@{name} && $(call netlist,@@{module},@@{modules},@@{inner}) && \
	  iverilog -g2012 $(MORE) -D@@{define} -o gates_tb ../chip/@@{module}_tb.sv @@{module}_gates.v @@{model} $(if $(CELLS),cells.v) && \
	  vvp -n gates_tb | tee gates_run.log && $(call passed,@@{module}_tb,gates_run.log)) && \
	  touch $@ && $(call done,$@,@@{bench} @@{boxes} $(CELLS)); }
else
	@echo "@@{whole}: yosys is not installed, so there are no gates of @@{name}"
endif
