	ldrpc	r0	stack
	ldrpc	r1	first
	movi	r2	0
	jl	recipe
	ldrpc	r7	secret
	ldr	r8	0*4	r7
	ldr	r9	1*4	r7
	ldr	r10	2*4	r7
	ldr	r11	3*4	r7
stay	sj	stay
	word	0
	word	0
	half	0
recipe	cmpgti	r2	8-1
	sjt	back
	ldrb	r3	0	r1
	movi	r4	0x30
	cmpeq	r3	r4
	sjf	back
	addi	r0	-4
	mfsfr	r5	sfr1
	str	r5	0	r0
	mov	r12	r0
	addi	r1	2
	addi	r2	1
	jl	recipe
	ldr	r5	0	r0
	addi	r0	4
	jr	r5
back	jsfr	sfr1
stack	word	key+16+8*4
first	word	layer1
secret	word	key
layer1	half	0x3000+end-layer1-2
layer2	half	0x3000+end-layer2-2
layer3	half	0x3000+end-layer3-2
layer4	half	0x3000+end-layer4-2
layer5	half	0x3000+end-layer5-2
layer6	half	0x3000+end-layer6-2
layer7	half	0x3000+end-layer7-2
layer8	half	0x3000+end-layer8-2
layer9	half	0x3000+end-layer9-2
layer10	half	0x3000+end-layer10-2
layer11	half	0x3000+end-layer11-2
	half	0x0402
	half	0xdeed
end	half	0
	word	0
	word	0
	word	0
	word	0
	word	0
	word	0
	word	0
	word	0
	word	0
	word	0
	word	0
	word	0
	word	0
	word	0
	word	0
	word	0
	word	0
	word	0
	word	0
	word	0
	word	0
	word	0
	word	0
	word	0
	word	0
key	word	0x4e4f5441
	word	0x5259204b
	word	0x45592053
	word	0x54415445
