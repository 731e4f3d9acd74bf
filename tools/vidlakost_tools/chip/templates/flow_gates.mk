
@@{name}/gates: @@{name}/passed chip/made FORCE
ifneq ($(MADE),)
	@$(call kept,$@,@@{files} $(CELLS)) || { $(call again,$@); \
	  (cd @@{name} && $(call netlist,@@{name}_collar,@@{name}_collar.v @@{modules},../chip/@@{whole}_boxes.v) && \
	  iverilog -g2012 $(MORE) -D@@{define} -o gates_tb @@{name}_collar_tb.sv @@{name}_collar_gates.v @@{model} $(if $(CELLS),cells.v) && \
	  vvp -n gates_tb | tee gates_run.log && $(call passed,@@{name}_collar_tb,gates_run.log)) && touch $@ && $(call done,$@,@@{files} $(CELLS)); }
else
	@echo "@@{whole}: yosys is not installed, so there are no gates of @@{name}"
endif
