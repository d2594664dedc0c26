#define _GNU_SOURCE
#include <dlfcn.h>
#include <stdio.h>
#include <stdlib.h>
#include <stdint.h>
#include <string.h>
#include <time.h>
typedef struct{void*p;size_t n;} S; typedef uint64_t (*plan_t)(uint16_t, S*, S*, S*, S*);
static double now(void){struct timespec t;clock_gettime(CLOCK_THREAD_CPUTIME_ID,&t);return t.tv_sec*1e6+t.tv_nsec/1e3;}
static int cmp(const void*a,const void*b){double x=*(double*)a,y=*(double*)b;return x<y?-1:x>y;}
int main(int c,char**v){
  int n=c-1; plan_t f[16];
  for(int i=0;i<n;i++){void*h=dlopen(v[i+1],RTLD_NOW|RTLD_LOCAL); if(!h){puts(dlerror());return 1;} f[i]=(plan_t)dlsym(h,"try_plan");}
  int ks[]={6,8,10}, rounds[]={600,200,30};
  for(int q=0;q<3;q++){int k=ks[q];size_t N=1u<<k;uint32_t*t=malloc(4*N*N);srand(5);for(size_t i=0;i<N*N;i++)t[i]=((uint32_t)rand()*7919u)%4000001u;
    uint16_t*o=malloc(2*N),*p=malloc(4*N);uint64_t*b=malloc(16*N);
    double*d[16];for(int i=0;i<n;i++)d[i]=malloc(8*rounds[q]);uint64_t first=0;
    for(int r=0;r<rounds[q];r++)for(int i=0;i<n;i++){double s=now();uint64_t x=f[i](k,&(S){t,N*N},&(S){o,N},&(S){b,2*N},&(S){p,2*N});d[i][r]=now()-s;if(!r&&!i)first=x;if(x!=first){printf("differs %d\n",i);return 1;}}
    printf("k %d:",k);double base=0;for(int i=0;i<n;i++){qsort(d[i],rounds[q],8,cmp);double y=d[i][rounds[q]/10];if(!i)base=y;printf("  %s %.1f (%.3f)",strrchr(v[i+1],'/')+1,y,y/base);}puts("");}
}
